//! Accepted sheets that a checker stricter than document 01 would break.

use super::clauses::bases::{
    group, interactive, interactive_with_set, parent_and_children, set_with_gain, set_with_ranges,
    single_objects, OWN_1_WITHOUT_RANGES,
};
use super::clauses::common_list;
use super::languages::lists::{self, of_codes};
use super::languages::standings::local_a;
use super::Generated;
use crate::build::{language, Pack, Plan, Track, ValueSet, SILENCE};
use crate::second::Verdict;

/// All of them by name.
pub fn sheets() -> Vec<Generated> {
    let plans = [unused_records(), shared_records(), values(), groups_and_programmes()];
    let plans = plans.into_iter().flatten().map(|(name, plan)| (name, plan, common_list()));
    let accepted = |(name, plan, langs): (&str, Plan, Vec<u8>)| Generated {
        name: name.to_string(),
        sheet: plan.bytes(),
        langs,
        expected: Some(Verdict::Accepted),
    };
    plans.chain(beside_lists()).map(accepted).collect()
}

/// Sheet A, changed.
fn a_with(change: impl FnOnce(&mut Plan)) -> Plan {
    let mut plan = Plan::sheet_a();
    change(&mut plan);
    plan
}

fn unused_records() -> Vec<(&'static str, Plan)> {
    let unused_pack = Pack { kind: 1, channels: 12, front: 1 };
    vec![
        ("40 packs of kind 1 at level 1", a_with(|plan| plan.packs.extend([unused_pack; 39]))),
        (
            "unused pack of 65535 channels at level 0",
            a_with(|plan| {
                plan.level = 0;
                plan.packs.push(Pack { channels: 65535, ..unused_pack });
            }),
        ),
        (
            "unused track of no channel",
            a_with(|plan| plan.tracks.push(Track { pack: 0, ordinal: 65535 })),
        ),
        ("unused entries", a_with(|plan| plan.stray_entries = vec![0, 65535, 32767])),
        ("sets that no programme names", a_with(|plan| plan.add_sets(0, &[ValueSet::NONE; 8]))),
        ("largest sheet", Plan::sheet_a().filled()),
        ("100 objects at level 0", single_objects(0, 100)),
    ]
}

fn shared_records() -> Vec<(&'static str, Plan)> {
    let mut overlapping = single_objects(1, 3);
    overlapping.add_programme(vec![1, 2]);
    overlapping.add_programme(vec![0]);
    overlapping.shares_entries = true;
    let mut same_labels = Plan::sheet_a();
    let own = same_labels.programmes[0].language;
    same_labels.programmes[0].labels = vec![own];
    same_labels.contents[0].labels = vec![own];
    vec![
        ("track of two objects", single_objects(1, 2)),
        ("overlapping lists", overlapping),
        ("label of the own language", same_labels),
        (
            "equal programmes",
            a_with(|plan| {
                plan.add_programme(vec![0]);
            }),
        ),
    ]
}

fn values() -> Vec<(&'static str, Plan)> {
    let mut silent = interactive();
    silent.objects[0].values.gain = SILENCE;
    silent.objects[0].values.gain_range = (SILENCE, 0);
    let wider = set_with_ranges((SILENCE, 210), (-300, 300));
    let mut inherited = interactive_with_set(set_with_gain(0));
    inherited.objects[0].values.offset = -100;
    let mut outside_of_no_range = interactive_with_set(OWN_1_WITHOUT_RANGES);
    outside_of_no_range.objects[0].values.gain = 60;
    vec![
        ("front 1 on kind 1", a_with(|plan| plan.packs[0].front = 1)),
        ("interact 1 without ranges", a_with(|plan| plan.objects[0].interact = 1)),
        ("gain without a range", a_with(|plan| plan.objects[0].values.gain = -600)),
        ("silence with interact 0", a_with(|plan| plan.objects[0].values.gain = SILENCE)),
        ("range down to silence", silent),
        ("set with a wider range than its object", interactive_with_set(wider)),
        ("set that inherits an offset", inherited),
        ("own 1 without ranges", outside_of_no_range),
    ]
}

fn groups_and_programmes() -> Vec<(&'static str, Plan)> {
    let mut one_member = group(1, 3);
    one_member.add_programme(vec![2]);
    let mut parent_in_pair = parent_and_children();
    let object = parent_in_pair.add_object(0);
    parent_in_pair.include(object);
    parent_in_pair.objects[0].complements = vec![object];
    let mut single_set = group(1, 2);
    single_set.add_sets(1, &[set_with_gain(5)]);
    single_set.add_programme(vec![1]);
    single_set.programmes[1].sets = vec![0];
    vec![
        ("one member of a group", one_member),
        ("parent as leader of an object", parent_in_pair),
        ("set for a member included alone", single_set),
    ]
}

/// Sheets beside lists of unusual length or words.
fn beside_lists() -> Vec<(&'static str, Plan, Vec<u8>)> {
    let a = Plan::sheet_a;
    let eng = || of_codes(&["eng"]);
    let mut in_two_languages = a();
    in_two_languages.programmes[0].language = language("aar");
    in_two_languages.contents[0].language = language("zza");
    in_two_languages.programmes[0].labels = ["zza", "aar", "dut", "nld"].map(language).into();
    let around = ["paz", "pzz", "qua", "raa"];
    let mut around_the_range = a();
    around_the_range.programmes[0].language = language("qua");
    around_the_range.contents[0].language = language("paz");
    around_the_range.programmes[0].labels = ["pzz", "raa", "qua"].map(language).into();
    around_the_range.contents[0].labels = ["raa", "paz"].map(language).into();
    vec![
        ("paz pzz qua and raa listed", around_the_range, of_codes(&around)),
        ("qaa and qtb beside an empty list", local_a(), Vec::new()),
        ("qaa and qtb beside a list of a byte", local_a(), vec![0]),
        ("qaa and qtb beside a list of other words", local_a(), eng()),
        ("qaa and qtb listed too", local_a(), of_codes(&["qaa", "qtb"])),
        ("list of one word", a(), eng()),
        ("list of one word and an odd byte", a(), lists::with_odd_byte(eng(), 255)),
        ("list with an odd byte lower than its last", a(), lists::with_odd_byte(eng(), 0)),
        ("list with words above 32767", a(), lists::of([language("eng"), 32_767, 32_768, 65_535])),
        ("list with words of no letters", a(), lists::of([0, 1, language("eng"), 5127, 27_483])),
        ("list of all words and an odd byte", a(), lists::with_odd_byte(lists::all_words(), 0)),
        ("first and last of the list of iso 639-2", in_two_languages, lists::REAL.to_vec()),
    ]
}
