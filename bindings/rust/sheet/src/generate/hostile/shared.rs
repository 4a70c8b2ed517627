//! Every record has the same long list.

use super::{
    a_with_run, add_top_objects, broken, copy_content, copy_object, copy_programme,
    copy_top_object, generated, of_languages, over_run, top_objects, Generated, Size,
};
use crate::build::{word, Plan, ValueSet};
use crate::generate::languages::lists::three_letters;
use crate::second::view::{content, object, programme, CONTENT, OBJECT, PROGRAMME};
use crate::second::Verdict;

/// The sheets with one list for all.
pub fn sheets(size: Size) -> Vec<Generated> {
    let mut sheets = run_sheets(size);
    sheets.extend(group_sheets(size));
    sheets.extend([tracks(size), ordinals(size), children_of_one(size), spans(size)]);
    sheets.extend(many_sets(size));
    sheets
}

fn run_sheets(size: Size) -> Vec<Generated> {
    let languages: Vec<u16> = three_letters().take(size.run()).collect();
    let zeros = vec![0; size.run()];
    let sheet = |name, run: &Vec<u16>, copies, list, expected| {
        let plan = a_with_run(size, run.clone(), copies);
        of_languages(name, over_run(&plan, list), expected)
    };
    let programme_labels = (PROGRAMME, programme::LABELS);
    let content_labels = (CONTENT, content::LABELS);
    let contents = (PROGRAMME, programme::CONTENTS);
    let children = (OBJECT, object::CHILDREN);
    let complements = (OBJECT, object::COMPLEMENTS);
    let accepted = Verdict::Accepted;
    vec![
        sheet("programme labels", &languages, copy_programme, programme_labels, accepted),
        sheet("content labels", &languages, copy_content, content_labels, broken(11, 3, 0)),
        sheet("contents of programmes", &zeros, copy_programme, contents, broken(12, 1, 0)),
        sheet("children", &zeros, copy_object, children, broken(11, 3, 0)),
        sheet("complements", &zeros, copy_top_object, complements, broken(19, 3, 0)),
    ]
}

/// Programmes that all include every object: pairs, and one group of all.
fn group_sheets(size: Size) -> Vec<Generated> {
    let objects = size.part(360) * 2;
    let sheet = |name, group_size: usize| {
        let mut plan = top_objects(objects);
        for leader in (0..objects).step_by(group_size) {
            let complements = leader + 1..leader + group_size;
            plan.objects[leader].complements = complements.map(word).collect();
        }
        plan.shares_entries = true;
        let left = size.left(&plan);
        copy_programme(&mut plan, left);
        generated(name, plan.filled_to(size.0).bytes(), Verdict::Accepted)
    };
    vec![sheet("pairs in every programme", 2), sheet("one group in every programme", objects)]
}

/// Objects that all list every channel of one large pack.
fn tracks(size: Size) -> Generated {
    let mut plan = Plan::sheet_a();
    plan.level = 0;
    plan.packs.clear();
    plan.tracks.clear();
    plan.objects.clear();
    let pack = plan.add_pack(1, word(size.part(5000)), 0);
    plan.add_object(pack);
    plan.shares_entries = true;
    let left = size.left(&plan);
    add_top_objects(&mut plan, left / 22);
    generated("tracks", plan.filled_to(size.0).bytes(), Verdict::Accepted)
}

/// One object with as many tracks as fit.
fn ordinals(size: Size) -> Generated {
    let mut plan = Plan::new(0);
    let pack = plan.add_pack(1, word(size.part(10_800)), 1);
    let object = plan.add_object(pack);
    plan.objects[0].tracks.reverse();
    let content = plan.add_content(object);
    plan.add_programme(vec![content]);
    generated("ordinals", plan.filled_to(size.0).bytes(), Verdict::Accepted)
}

fn children_of_one(size: Size) -> Generated {
    let plan = parent_of(size);
    generated("children of one object", plan.filled_to(size.0).bytes(), Verdict::Accepted)
}

/// One object with as many children as fit.
pub fn parent_of(size: Size) -> Plan {
    let mut plan = Plan::new(0);
    let pack = plan.add_pack(3, 1, 0);
    let children = word(size.part(1900));
    let parent = plan.add_parent((1..=children).collect());
    for _ in 0..children {
        plan.add_object(pack);
    }
    let content = plan.add_content(parent);
    plan.add_programme(vec![content]);
    plan.shares_entries = true;
    plan
}

/// Objects whose spans all hold every value set.
fn spans(size: Size) -> Generated {
    let mut plan = Plan::sheet_a();
    plan.level = 0;
    let sets = size.part(2000);
    plan.add_sets(0, &vec![ValueSet::NONE; sets]);
    let left = size.left(&plan);
    copy_top_object(&mut plan, left);
    generated("spans", plan.filled_to(size.0).bytes(), broken(11, 7, 0))
}

/// Programmes that name a set for every object of pairs, and one set again and again.
fn many_sets(size: Size) -> Vec<Generated> {
    let objects = word(size.part(275) * 2);
    let mut plan = top_objects(usize::from(objects));
    for object in 0..objects {
        plan.add_sets(object, &[ValueSet::NONE]);
        if object % 2 == 0 {
            plan.objects[usize::from(object)].complements = vec![object + 1];
        }
    }
    plan.programmes[0].sets = (0..objects).collect();
    plan.shares_entries = true;
    let left = size.left(&plan);
    copy_programme(&mut plan, left);
    let mut one_set =
        a_with_run(size, vec![0; size.run()], |plan, left| copy_programme(plan, left - 7));
    one_set.add_sets(0, &[ValueSet::NONE]);
    let one_set = over_run(&one_set, (PROGRAMME, programme::SETS));
    vec![
        generated("sets of pairs", plan.filled_to(size.0).bytes(), Verdict::Accepted),
        generated("one set", one_set, broken(22, 1, 0)),
    ]
}
