//! Clauses of rules 4 and 5.

use super::Clause;
use crate::build::{overwrite, Plan, NO_PACK};
use crate::second::view::{content, object, programme, CONTENT, OBJECT, PROGRAMME};

/// Clauses of rules 4 and 5.
pub fn clauses() -> Vec<Clause> {
    [filled_lists(), empty_lists(), exact_sums(), indices()].into_iter().flatten().collect()
}

/// A with the words "first" and "count" of a list changed.
fn a_with_list(section: u8, field: usize, first: u16, count: u16) -> Vec<u16> {
    let mut words = Plan::sheet_a().words();
    overwrite(&mut words, section, 0, field, first);
    overwrite(&mut words, section, 0, field + 1, count);
    words
}

/// Lists that hold an entry in A, moved past the 2 entries of its section 6.
fn filled_lists() -> Vec<Clause> {
    let moved = |what, section, field| {
        let breach = |words: &mut Vec<u16>| *words = a_with_list(section, field, 2, 1);
        Clause::of_words((4, what), (section, 0), Plan::sheet_a().words(), breach)
    };
    vec![
        moved("content list", PROGRAMME, programme::CONTENTS),
        moved("track list", OBJECT, object::TRACKS),
    ]
}

/// Lists that are empty in A: at the end of their section they are accepted, one further
/// or with a count of 1 they aren't.
fn empty_lists() -> Vec<Clause> {
    let lists = [
        ("set list", PROGRAMME, programme::SETS, 2),
        ("programme label list", PROGRAMME, programme::LABELS, 2),
        ("content label list", CONTENT, content::LABELS, 2),
        ("child list", OBJECT, object::CHILDREN, 2),
        ("complement list", OBJECT, object::COMPLEMENTS, 2),
        ("set span", OBJECT, object::SETS, 0),
    ];
    let beyond = |what: String, section, field, length, (first, count)| {
        let neighbour = a_with_list(section, field, length, 0);
        let breach = |words: &mut Vec<u16>| *words = a_with_list(section, field, first, count);
        Clause::of_words((4, &what), (section, 0), neighbour, breach)
    };
    lists
        .into_iter()
        .flat_map(|(what, section, field, length)| {
            let empty = format!("empty {what}");
            [
                beyond(what.to_string(), section, field, length, (length, 1)),
                beyond(empty, section, field, length, (length + 1, 0)),
            ]
        })
        .collect()
}

fn exact_sums() -> Vec<Clause> {
    let a = Plan::sheet_a().words();
    let field = content::LABELS;
    vec![Clause::of_words((4, "first plus count past 16 bits"), (CONTENT, 0), a, |words| {
        *words = a_with_list(CONTENT, field, 65535, 2)
    })]
}

fn indices() -> Vec<Clause> {
    let changed = |what, place, breach: fn(&mut Plan)| {
        Clause::of_plan((5, what), place, Plan::sheet_a(), breach)
    };
    vec![
        changed("content of a programme", (1, 0), |plan| plan.programmes[0].contents[0] = 1),
        changed("set of a programme", (1, 0), |plan| plan.programmes[0].sets.push(0)),
        changed("object of a content", (2, 0), |plan| plan.contents[0].object = 1),
        changed("pack of an object", (3, 0), |plan| plan.objects[0].pack = 1),
        changed("track of an object", (3, 0), |plan| plan.objects[0].tracks[0] = 1),
        changed("child", (3, 0), |plan| plan.objects[0].children.push(1)),
        changed("complement", (3, 0), |plan| plan.objects[0].complements.push(1)),
        changed("pack of a track", (5, 0), |plan| plan.tracks[0].pack = 1),
        changed("no pack at a track", (5, 0), |plan| plan.tracks[0].pack = NO_PACK),
    ]
}
