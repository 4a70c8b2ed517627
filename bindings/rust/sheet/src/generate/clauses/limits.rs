//! Clauses of rules 7, 8, 10, 23 and 24, at levels 1 and 2.
//!
//! Some limits are never broken first. 9 groups at level 1, or 15 at level 2, have more
//! than 16, or 28, members and so more contents than rule 7 allows; at level 1 groups and
//! objects in no group are never more than the 16 contents; and a sheet without objects
//! has no contents either, so that section 3 is never the place of a count of 0.

use super::bases::{group, group_with_sets, parent_and_children, single_objects};
use super::Clause;
use crate::build::{word, Pack, Plan, ValueSet};

/// Clauses of rules 7, 8, 10, 23 and 24.
pub fn clauses() -> Vec<Clause> {
    [
        empty_sections(),
        section_counts(1, [8, 16, 48, 32, 32]),
        section_counts(2, [16, 28, 84, 56, 56]),
        empty_content_list(),
        programme_lists(1, [16, 16, 4]),
        programme_lists(2, [28, 28, 8]),
        object_lists(1, [16, 15, 8]),
        object_lists(2, [28, 27, 16]),
        channels(),
        groups_and_single_objects(),
        counted_tracks(1, 16),
        counted_tracks(2, 28),
    ]
    .into_iter()
    .flatten()
    .collect()
}

fn empty_sections() -> Vec<Clause> {
    let emptied = |what, level, section, breach: fn(&mut Plan)| {
        let mut neighbour = Plan::sheet_a();
        neighbour.level = level;
        let mut broken = neighbour.clone();
        breach(&mut broken);
        Clause::of_plans((7, what), (section, 0), neighbour, broken)
    };
    vec![
        emptied("no records at level 0", 0, 1, |plan| *plan = Plan::new(0)),
        emptied("no programme", 1, 1, |plan| plan.programmes.clear()),
        emptied("no content", 1, 2, no_contents),
        emptied("no content and no object", 2, 2, |plan| {
            no_contents(plan);
            plan.objects.clear();
        }),
        emptied("no track", 0, 5, |plan| {
            plan.objects[0].tracks.clear();
            plan.tracks.clear();
        }),
    ]
}

fn no_contents(plan: &mut Plan) {
    plan.programmes[0].contents.clear();
    plan.contents.clear();
}

/// A clause on both sides of a maximum.
fn past(
    (rule, what): (u8, &str),
    place: (u8, u16),
    maximum: usize,
    with: impl Fn(usize) -> Plan,
) -> Clause {
    let level = with(maximum).level;
    let name = format!("{what} {} at level {level}", maximum + 1);
    Clause::of_plans((rule, &name), place, with(maximum), with(maximum + 1))
}

fn section_counts(level: u16, maximums: [usize; 5]) -> Vec<Clause> {
    let [programmes, contents, objects, packs, tracks] = maximums;
    let one_object = move || single_objects(level, 1);
    vec![
        past((7, "programmes"), (1, 0), programmes, |number| {
            let mut plan = one_object();
            for _ in 1..number {
                plan.add_programme(vec![0]);
            }
            plan
        }),
        past((7, "contents"), (2, 0), contents, |number| group(level, number)),
        past((7, "objects"), (3, 0), objects, |number| group_of_parents(level, number)),
        past((7, "packs of kind 3,"), (4, 0), packs, |number| {
            let mut plan = one_object();
            plan.packs = vec![plan.packs[0]; number];
            plan
        }),
        past((7, "tracks"), (5, 0), tracks, |number| {
            let mut plan = one_object();
            plan.tracks = vec![plan.tracks[0]; number];
            plan
        }),
    ]
}

/// A group whose members have two children each, and objects that nothing names where
/// the number isn't a multiple of 3.
fn group_of_parents(level: u16, objects: usize) -> Plan {
    let mut plan = group(level, objects / 3);
    for parent in 0..objects / 3 {
        let children = vec![plan.add_object(0), plan.add_object(0)];
        plan.make_parent(word(parent), children);
    }
    for _ in 0..objects % 3 {
        plan.add_object(0);
    }
    plan
}

fn empty_content_list() -> Vec<Clause> {
    let at_level = |level| {
        let name = format!("no content in a programme at level {level}");
        let neighbour = single_objects(level, 1);
        Clause::of_plan((8, &name), (1, 1), two_programmes(neighbour), |plan| {
            plan.programmes[1].contents.clear()
        })
    };
    vec![at_level(0), at_level(1)]
}

fn two_programmes(mut plan: Plan) -> Plan {
    plan.add_programme(vec![0]);
    plan
}

fn programme_lists(level: u16, maximums: [usize; 3]) -> Vec<Clause> {
    let [contents, sets, labels] = maximums;
    let languages = |number: usize| (0..word(number)).map(|third| 1057 + third).collect();
    vec![
        past((8, "contents of a programme"), (1, 0), contents, |number| {
            let mut plan = group(level, contents);
            plan.programmes[0].contents = cycled(contents, number);
            plan
        }),
        past((8, "sets of a programme"), (1, 0), sets, |number| {
            let mut plan = group_with_sets(level, sets, ValueSet::NONE);
            plan.programmes[0].sets = cycled(sets, number);
            plan
        }),
        past((8, "labels of a programme"), (1, 0), labels, |number| {
            let mut plan = single_objects(level, 1);
            plan.programmes[0].labels = languages(number);
            plan
        }),
        past((8, "labels of a content"), (2, 0), labels, |number| {
            let mut plan = single_objects(level, 1);
            plan.contents[0].labels = languages(number);
            plan
        }),
    ]
}

/// The indices below `length`, from 0 again after the last, up to `number` of them.
fn cycled(length: usize, number: usize) -> Vec<u16> {
    (0..word(length)).cycle().take(number).collect()
}

fn object_lists(level: u16, maximums: [usize; 3]) -> Vec<Clause> {
    let [children, complements, sets] = maximums;
    vec![
        past((8, "children"), (3, 0), children, |number| {
            let mut plan = Plan::new(level);
            let pack = plan.add_pack(3, 1, 0);
            let parent = plan.add_parent((1..=word(number)).collect());
            for _ in 0..number {
                plan.add_object(pack);
            }
            let content = plan.add_content(parent);
            plan.add_programme(vec![content]);
            plan
        }),
        past((8, "complements"), (3, 0), complements, |number| {
            let mut plan = group(level, complements + 1);
            let listed = cycled(complements, number);
            plan.objects[0].complements = listed.into_iter().map(|index| index + 1).collect();
            plan
        }),
        past((8, "sets of an object"), (3, 0), sets, |number| {
            let mut plan = single_objects(level, 1);
            plan.add_sets(0, &vec![ValueSet::NONE; number]);
            plan
        }),
    ]
}

fn channels() -> Vec<Clause> {
    let unused = |level, kind, channels| {
        let mut plan = single_objects(level, 1);
        plan.packs.push(Pack { kind, channels: word(channels), front: 0 });
        plan
    };
    let changed = |what, kind, channels| {
        let neighbour = unused(1, kind, 1);
        Clause::of_plan((10, what), (4, 1), neighbour, |plan| plan.packs[1].channels = channels)
    };
    vec![
        changed("kind 3 without a channel", 3, 0),
        changed("kind 3 with 2 channels", 3, 2),
        changed("kind 1 without a channel", 1, 0),
        past((10, "channels"), (4, 1), 12, |number| unused(1, 1, number)),
        past((10, "channels"), (4, 1), 24, |number| unused(2, 1, number)),
    ]
}

fn groups_and_single_objects() -> Vec<Clause> {
    let pairs_and_single = |pairs: usize, number: usize| {
        let mut plan = single_objects(2, number + pairs);
        for pair in 0..pairs {
            plan.objects[2 * pair].complements = vec![word(2 * pair + 1)];
        }
        plan
    };
    let clause =
        |what, pairs| past((23, what), (0, 0), 16, move |number| pairs_and_single(pairs, number));
    vec![
        clause("objects in no group", 0),
        clause("a pair and objects in no group,", 1),
        clause("11 pairs and objects in no group,", 11),
    ]
}

/// Counted tracks of objects in no group, of a group's largest member and of children.
fn counted_tracks(level: u16, maximum: usize) -> Vec<Clause> {
    let direct_speakers = |sizes: &[usize]| {
        let mut plan = Plan::new(level);
        for (index, &size) in sizes.iter().enumerate() {
            let pack = plan.add_pack(1, word(size), 0);
            plan.add_object(pack);
            plan.add_content(word(index));
        }
        plan.add_programme((0..word(sizes.len())).collect());
        plan
    };
    let lead = |mut plan: Plan| {
        plan.objects[0].complements = vec![1];
        plan
    };
    vec![
        past((24, "tracks of two objects,"), (0, 0), maximum, |number| {
            direct_speakers(&[5, number - 5])
        }),
        past((24, "tracks with a large leader,"), (0, 0), maximum, |number| {
            lead(direct_speakers(&[12, 3, number - 12]))
        }),
        past((24, "tracks with a small leader,"), (0, 0), maximum, |number| {
            lead(direct_speakers(&[3, 12, number - 12]))
        }),
        past((24, "tracks with children,"), (0, 0), maximum, |number| {
            parent_beside_direct_speakers(level, number - 2)
        }),
        past((24, "entries of one track,"), (0, 0), maximum, |number| {
            parent_beside_single_objects(level, number)
        }),
    ]
}

/// A parent of two children beside two objects of `channels` in all.
fn parent_beside_direct_speakers(level: u16, channels: usize) -> Plan {
    let mut plan = parent_and_children();
    plan.level = level;
    for size in [channels / 2, channels - channels / 2] {
        let pack = plan.add_pack(1, word(size), 0);
        let object = plan.add_object(pack);
        plan.include(object);
    }
    plan
}

/// A parent whose children and two other objects list one track, `entries` times in all.
fn parent_beside_single_objects(level: u16, entries: usize) -> Plan {
    let mut plan = parent_and_children();
    plan.level = level;
    for _ in 2..entries - 2 {
        let child = plan.add_object(0);
        plan.objects[0].children.push(child);
    }
    for _ in 0..2 {
        let object = plan.add_object(0);
        plan.include(object);
    }
    plan
}
