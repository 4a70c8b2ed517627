//! Lists shifted by one against each other, or two that alternate; accepted, or broken by
//! the last record.

use super::{
    a_with_run, broken, copy_content, copy_programme, copy_top_object, generated, of_languages,
    set_lists, top_objects, with_lists, Generated, Size,
};
use crate::build::{bytes, word, Pack, Plan, Track, ValueSet};
use crate::generate::languages::lists::three_letters;
use crate::second::view::{content, object, programme, CONTENT, OBJECT, PROGRAMME};
use crate::second::Verdict::{self, Accepted};

/// The sheets with shifted or alternating lists.
pub fn sheets(size: Size) -> Vec<Generated> {
    let mut sheets = vec![complements(size), alternating_packs(size), jumping_sets(size)];
    sheets.push(groups_with_sets("sets of groups of three", 3, size.part(180), size));
    sheets.push(groups_with_sets("sets of one group", size.part(540), 1, size));
    sheets.extend(one_of_each(3, size.part(215), size));
    sheets.extend(one_of_each(4, size.part(86), size));
    sheets.extend(short_lists(size));
    sheets.push(falling_labels(size));
    sheets.extend(labels(size));
    sheets.extend(contents(size));
    sheets.extend(sets(size));
    sheets.extend(tracks(size));
    sheets
}

/// Label lists of half the run.
fn labels(size: Size) -> [Generated; 2] {
    let run: Vec<u16> = three_letters().take(size.run()).collect();
    let half = run.len() / 2;
    let sheet = |name, copies, labels| {
        let plan = a_with_run(size, run.clone(), copies);
        let words = with_lists(&plan, labels, |number| (number % half, half));
        of_languages(name, bytes(&words), Accepted)
    };
    [
        sheet("shifted programme labels", copy_programme, (PROGRAMME, programme::LABELS)),
        sheet("shifted content labels", copy_top_object, (CONTENT, content::LABELS)),
    ]
}

/// Contents of one object with 48 labels each, in falling order.
fn falling_labels(size: Size) -> Generated {
    let mut run: Vec<u16> = three_letters().take(48).collect();
    run.sort_unstable_by(|a, b| b.cmp(a));
    let mut plan = a_with_run(size, run, |_, _| ());
    copy_content(&mut plan, 5 * size.part(5400));
    let words = with_lists(&plan, (CONTENT, content::LABELS), |_| (0, 48));
    of_languages("falling labels", bytes(&words), broken(11, 3, 0))
}

fn complements(size: Size) -> Generated {
    let mut plan = top_objects(size.part(1300));
    let objects = plan.objects.len();
    plan.stray_entries = twice(objects);
    let words = with_lists(&plan, (OBJECT, object::COMPLEMENTS), |number| (number, objects));
    generated("shifted complements", bytes(&words), broken(19, 3, 0))
}

/// All indices below a number, and once more: so many entries from any of the first half
/// on are each index once.
fn twice(number: usize) -> Vec<u16> {
    (0..word(number)).chain(0..word(number)).collect()
}

/// A plan with as many programmes as leave space for the run, which then follows.
fn with_programmes(mut plan: Plan, run: Vec<u16>, size: Size) -> Plan {
    plan.stray_entries = run;
    let left = size.left(&plan);
    copy_programme(&mut plan, left);
    plan
}

/// Lists of so many entries, each shifted by one, and the last with another count.
fn shifted(number: usize, last: usize, count_of_last: usize) -> impl Fn(usize) -> (usize, usize) {
    move |record| match record == last {
        true => (0, count_of_last),
        false => (record % number, number),
    }
}

/// Programmes that include all objects of one group, each from another content on.
fn contents(size: Size) -> Vec<Generated> {
    let mut plan = top_objects(size.part(600));
    let objects = plan.objects.len();
    plan.objects[0].complements = (1..word(objects)).collect();
    let plan = with_programmes(plan, twice(objects), size);
    let last = plan.programmes.len() - 1;
    let sheet = |name, count, expected: Verdict| {
        let list = shifted(objects, last, count);
        let words = with_lists(&plan, (PROGRAMME, programme::CONTENTS), list);
        generated(name, bytes(&words), expected)
    };
    vec![
        sheet("shifted contents", objects, Accepted),
        sheet("shifted contents, one twice", objects + 1, broken(12, 1, last)),
        sheet("shifted contents, one of a group left out", objects - 1, broken(21, 1, last)),
    ]
}

/// Programmes that name a set for each object of pairs, each from another set on; and
/// programmes that name all first sets or all second ones.
fn sets(size: Size) -> Vec<Generated> {
    let plan = with_programmes(pairs_with_sets(size), twice(2 * size.part(180)), size);
    let objects = plan.objects.len();
    let last = plan.programmes.len() - 1;
    let sheet = |name, run: Vec<u16>, list: &dyn Fn(usize) -> (usize, usize), expected| {
        let plan = Plan { stray_entries: run, ..plan.clone() };
        generated(name, bytes(&with_lists(&plan, (PROGRAMME, programme::SETS), list)), expected)
    };
    let by_set = |number: usize| (0..word(objects)).map(move |object| 2 * object + word(number));
    let first_sets: Vec<u16> = by_set(0).chain(by_set(0)).collect();
    let both_sets = by_set(0).chain(by_set(1)).collect();
    let all = shifted(objects, last, objects);
    let not_all = shifted(objects, last, objects - 1);
    vec![
        sheet("shifted sets", first_sets.clone(), &all, Accepted),
        sheet("shifted sets, one of a pair left out", first_sets, &not_all, broken(22, 1, last)),
        sheet("alternating sets", both_sets, &|number| (number % 2 * objects, objects), Accepted),
    ]
}

/// Programmes of which contents and sets are shifted by different steps, so that in no
/// order of the programmes both lists stay near.
fn jumping_sets(size: Size) -> Generated {
    let plan = pairs_with_sets(size);
    let objects = plan.objects.len();
    let mut run = twice(objects);
    run.extend(twice(objects).iter().map(|object| 2 * object));
    let plan = with_programmes(plan, run, size);
    let contents = |number| (number % objects, objects);
    let sets = |number| (2 * objects + number * (objects / 2 + 1) % objects, objects);
    let mut words = with_lists(&plan, (PROGRAMME, programme::CONTENTS), contents);
    set_lists(&mut words, 4 * objects, (PROGRAMME, programme::SETS), sets);
    generated("jumping sets", bytes(&words), Accepted)
}

/// Pairs of objects with two sets each.
fn pairs_with_sets(size: Size) -> Plan {
    let mut plan = top_objects(2 * size.part(180));
    for object in 0..word(plan.objects.len()) {
        plan.add_sets(object, &[ValueSet::NONE; 2]);
        if object % 2 == 0 {
            plan.objects[usize::from(object)].complements = vec![object + 1];
        }
    }
    plan
}

/// Top objects in groups of so many.
fn grouped(members: usize, groups: usize) -> Plan {
    let mut plan = top_objects(members * groups);
    for leader in (0..members * groups).step_by(members) {
        let others = word(leader + 1)..word(leader + members);
        plan.objects[leader].complements = others.collect();
    }
    plan
}

/// Programmes that include all objects of some groups, and name the one set of each; their
/// lists begin at the first content and set, or the second, in turn.
fn groups_with_sets(name: &str, members: usize, groups: usize, size: Size) -> Generated {
    let mut plan = grouped(members, groups);
    let objects = plan.objects.len();
    for object in 0..objects {
        plan.add_sets(word(object), &[ValueSet::NONE]);
    }
    let entries: Vec<u16> = (0..word(objects)).chain([0]).collect();
    let plan = with_programmes(plan, entries.repeat(2), size);
    let contents = |number| (number % 2, objects);
    let sets = |number| (objects + 1 + number % 2, objects);
    let mut words = with_lists(&plan, (PROGRAMME, programme::CONTENTS), contents);
    set_lists(&mut words, 2 * entries.len(), (PROGRAMME, programme::SETS), sets);
    generated(name, bytes(&words), Accepted)
}

/// Groups: the first programme includes all objects, each other one the first of each
/// group, or the second and so on in turn; in the second sheet the last programme
/// includes two of the first group.
fn one_of_each(members: usize, groups: usize, size: Size) -> [Generated; 2] {
    let plan = grouped(members, groups);
    let objects = plan.objects.len();
    let of_each = |member: usize| (member..objects).step_by(members).map(word);
    let run = (0..word(objects)).chain((0..members).flat_map(of_each)).collect();
    let plan = with_programmes(plan, run, size);
    let last = plan.programmes.len() - 1;
    let turn = |number| (objects + number % members * groups, groups);
    let sheet = |name: &str, list_of_last, expected| {
        let list = |number| match number {
            0 => (0, objects),
            _ if number == last => list_of_last,
            _ => turn(number),
        };
        let words = with_lists(&plan, (PROGRAMME, programme::CONTENTS), list);
        generated(&format!("one of each group of {members}{name}"), bytes(&words), expected)
    };
    [sheet("", turn(last), Accepted), sheet(", two in the last", (0, 2), broken(21, 1, last))]
}

/// Many objects in groups, and programmes that include few of them.
fn short_lists(size: Size) -> Vec<Generated> {
    let pairs = grouped(2, size.part(190));
    let threes = grouped(3, size.part(120));
    let mut with_set = threes.clone();
    with_set.add_sets(0, &[ValueSet::NONE]);
    let sheet = |name, plan, members, of_last, sets_of_first| {
        short_listed(name, plan, members, of_last, sets_of_first, size)
    };
    vec![
        sheet("short lists beside many pairs", pairs, 2, 1, 0),
        sheet("short lists beside one group", grouped(size.part(380), 1), size.part(380), 1, 0),
        sheet("short lists, two of three in the last", threes, 3, 2, 0),
        sheet("short lists, a set for one of three", with_set, 3, 1, 1),
    ]
}

/// The first programme includes all objects and names so many sets, each other one
/// includes an object of the first group, and the last so many of them.
fn short_listed(
    name: &str,
    plan: Plan,
    members: usize,
    of_last: usize,
    sets_of_first: usize,
    size: Size,
) -> Generated {
    let objects = plan.objects.len();
    let plan = with_programmes(plan, (0..word(objects)).collect(), size);
    let last = plan.programmes.len() - 1;
    let contents = |number| match number {
        0 => (0, objects),
        _ if number == last => (0, of_last),
        _ => (number % members, 1),
    };
    let sets = |number| (0, if number == 0 { sets_of_first } else { 0 });
    let mut words = with_lists(&plan, (PROGRAMME, programme::CONTENTS), contents);
    set_lists(&mut words, objects, (PROGRAMME, programme::SETS), sets);
    let expected = match (of_last, sets_of_first) {
        (1, 0) => Accepted,
        (1, _) => broken(22, 1, 0),
        _ => broken(21, 1, last),
    };
    generated(name, bytes(&words), expected)
}

/// Top objects as many as leave space for the run, on packs of so many channels in turn.
fn on_packs(packs: u16, channels: usize, run: Vec<u16>, size: Size) -> Plan {
    let mut plan = top_objects(1);
    plan.packs = vec![Pack { kind: 1, channels: word(channels), front: 0 }; usize::from(packs)];
    let tracks = |pack| (0..word(channels)).map(move |ordinal| Track { pack, ordinal });
    plan.tracks = (0..packs).flat_map(tracks).collect();
    plan.objects[0].tracks.clear();
    plan.stray_entries = run;
    let left = size.left(&plan);
    copy_top_object(&mut plan, left);
    for (object, pack) in plan.objects.iter_mut().zip((0..packs).cycle()) {
        object.pack = pack;
    }
    plan
}

/// Objects that list all channels of one pack, each from another track on; in the second
/// sheet the last entry, which only the last object lists, repeats an ordinal.
fn tracks(size: Size) -> Vec<Generated> {
    let channels = size.part(4000);
    let mut run = twice(channels);
    run[2 * channels - 1] = 0;
    let plan = on_packs(1, channels, run, size);
    let last = plan.objects.len() - 1;
    let sheet = |name, first_of_last: usize, expected| {
        let list = |object| match object == last {
            true => (first_of_last, channels),
            false => (object % channels, channels),
        };
        generated(name, bytes(&with_lists(&plan, (OBJECT, object::TRACKS), list)), expected)
    };
    vec![
        sheet("shifted tracks", 0, Accepted),
        sheet("shifted tracks, an ordinal twice", channels, broken(14, 3, last)),
    ]
}

/// Objects on two large packs in turn.
fn alternating_packs(size: Size) -> Generated {
    let channels = size.part(3000);
    let plan = on_packs(2, channels, (0..word(2 * channels)).collect(), size);
    let list = |object| (object % 2 * channels, channels);
    let words = with_lists(&plan, (OBJECT, object::TRACKS), list);
    generated("alternating packs", bytes(&words), Accepted)
}
