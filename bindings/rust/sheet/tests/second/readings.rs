//! The cases that the readings of document 01 name, by the number of the reading.

use sheet::build::{
    bytes, language, overwrite, Pack, Plan, Track, ValueSet, Values, NO_PACK, SILENCE,
};
use sheet::generate::clauses::common_list;
use sheet::second::view::{content, object, programme, CONTENT, OBJECT, PROGRAMME};
use sheet::second::{check, Verdict};

fn broken(rule: u8, section: u8, record: u16) -> Verdict {
    Verdict::Broken { rule, section, record }
}

/// Top objects on one front pack, and two programmes of them all.
fn objects(number: u16) -> Plan {
    let mut plan = Plan::new(1);
    let pack = plan.add_pack(3, 1, 1);
    for _ in 0..number {
        let object = plan.add_object(pack);
        plan.add_content(object);
    }
    plan.add_programme((0..number).collect());
    plan.add_programme((0..number).collect());
    plan
}

/// The verdict on three top objects after a change.
fn with(change: impl FnOnce(&mut Plan)) -> Verdict {
    let mut plan = objects(3);
    change(&mut plan);
    check(&plan.bytes(), &common_list())
}

/// The verdict on three top objects after the words of a list are changed.
fn with_list(section: u8, field: usize, [first, count]: [u16; 2]) -> Verdict {
    let mut words = objects(3).words();
    overwrite(&mut words, section, 1, field, first);
    overwrite(&mut words, section, 1, field + 1, count);
    check(&bytes(&words), &common_list())
}

/// Object 0 as parent of objects 1 and 2.
fn with_parent(change: impl FnOnce(&mut Plan)) -> Verdict {
    with(|plan| {
        plan.make_parent(0, vec![1, 2]);
        plan.contents.truncate(1);
        plan.programmes.iter_mut().for_each(|programme| programme.contents = vec![0]);
        change(plan);
    })
}

const OWN_1: ValueSet = ValueSet { own: 1, values: Values::NONE };

#[test]
fn the_sheets_that_the_cases_start_from_are_accepted() {
    assert_eq!(with(|_| ()), Verdict::Accepted);
    assert_eq!(with_parent(|_| ()), Verdict::Accepted);
}

#[test]
fn reading_1_the_place_of_a_bad_entry_is_the_record_with_the_list() {
    assert_eq!(with(|plan| plan.programmes[1].contents[2] = 3), broken(5, 1, 1));
    assert_eq!(with(|plan| plan.objects[2].tracks[0] = 1), broken(5, 3, 2));
}

#[test]
fn reading_2_the_place_of_a_bad_label_is_the_record_with_the_list() {
    assert_eq!(with(|plan| plan.programmes[1].labels = vec![0]), broken(6, 1, 1));
    assert_eq!(with(|plan| plan.contents[2].labels = vec![27483]), broken(6, 2, 2));
}

#[test]
fn reading_3_the_place_of_a_set_with_own_1_is_its_object() {
    assert_eq!(with(|plan| plan.add_sets(1, &[OWN_1])), broken(16, 3, 1));
}

#[test]
fn reading_4_minimums_hold_at_level_0() {
    let bare = [1, 0, 0, 16, 0, 16, 0, 16, 0, 16, 0, 16, 0, 16, 0, 16];
    assert_eq!(check(&bytes(&bare), &common_list()), broken(7, 1, 0));
    let at_level_0 = |change: fn(&mut Plan)| {
        with(|plan| {
            plan.level = 0;
            change(plan);
        })
    };
    assert_eq!(at_level_0(|plan| plan.programmes[1].contents.clear()), broken(8, 1, 1));
    assert_eq!(
        at_level_0(|plan| plan.programmes[1].labels = (1057..1067).collect()),
        Verdict::Accepted
    );
}

#[test]
fn reading_5_programmes_before_contents_in_9_and_12() {
    let twice = vec![language("fra"), language("fra")];
    let labels = |plan: &mut Plan| {
        plan.contents[0].labels = twice.clone();
        plan.programmes[1].labels = twice.clone();
    };
    assert_eq!(with(labels), broken(9, 1, 1));
    let contents = |plan: &mut Plan| {
        plan.programmes[0].contents = vec![1, 2];
        plan.programmes[1].contents = vec![1, 2, 1];
    };
    assert_eq!(with(contents), broken(12, 1, 1));
}

#[test]
fn reading_5_objects_before_sets_in_11_17_and_18() {
    let names = |plan: &mut Plan| {
        plan.value_sets.push(OWN_1);
        plan.add_object(0);
    };
    assert_eq!(with(names), broken(11, 3, 3));
    let offset = Values { offset: 0, ..Values::NONE };
    let offsets = |plan: &mut Plan| {
        plan.packs[0].front = 0;
        plan.add_sets(0, &[ValueSet { own: 0, values: offset }]);
        plan.objects[2].values = offset;
    };
    assert_eq!(with(offsets), broken(17, 3, 2));
    let gain = Values { gain: 11, ..Values::NONE };
    let gains = |plan: &mut Plan| {
        plan.objects[0].interact = 1;
        plan.objects[0].values.gain_range = (-10, 10);
        plan.objects[2] = plan.objects[0].clone();
        plan.add_sets(0, &[ValueSet { own: 0, values: gain }]);
        plan.objects[2].values.gain = 11;
    };
    assert_eq!(with(gains), broken(18, 3, 2));
}

#[test]
fn reading_5_the_least_set_whatever_its_object() {
    let offset = ValueSet { own: 0, values: Values { offset: 0, ..Values::NONE } };
    let offsets = |plan: &mut Plan| {
        plan.packs[0].front = 0;
        plan.add_sets(2, &[offset]);
        plan.add_sets(0, &[offset]);
    };
    assert_eq!(with(offsets), broken(17, 7, 0));
}

#[test]
fn reading_6_empty_lists_and_exact_sums() {
    let entries = objects(3).words()[12];
    let labels = |list| with_list(CONTENT, content::LABELS, list);
    assert_eq!(labels([entries, 0]), Verdict::Accepted);
    assert_eq!(labels([entries + 1, 0]), broken(4, 2, 1));
    assert_eq!(labels([65535, 2]), broken(4, 2, 1));
    assert_eq!(with_list(OBJECT, object::SETS, [0, 0]), Verdict::Accepted);
    assert_eq!(with_list(OBJECT, object::SETS, [1, 0]), broken(4, 3, 1));
    assert_eq!(with_list(PROGRAMME, programme::SETS, [1, 65535]), broken(4, 1, 1));
    let mut words = Plan::sheet_a().words();
    words[2] = 8193;
    assert_eq!(check(&bytes(&words), &common_list()), broken(3, 2, 0));
}

#[test]
fn reading_7_no_limit_for_track_lists() {
    assert_eq!(with(|plan| plan.objects[1].tracks = vec![0; 200]), broken(14, 3, 1));
    assert_eq!(with(|plan| plan.contents[1].labels = (1057..1062).collect()), broken(8, 2, 1));
}

#[test]
fn reading_8_packs_of_kind_1_are_unlimited() {
    let pack = Pack { kind: 1, channels: 12, front: 0 };
    assert_eq!(with(|plan| plan.packs.extend([pack; 100])), Verdict::Accepted);
}

#[test]
fn reading_9_words_that_rule_6_leaves_free() {
    assert_eq!(with(|plan| plan.packs[0].channels = 65535), broken(10, 4, 0));
    let track = Track { pack: 0, ordinal: 32767 };
    assert_eq!(with(|plan| plan.tracks.push(track)), Verdict::Accepted);
    assert_eq!(with(|plan| plan.stray_entries = vec![65535]), Verdict::Accepted);
    let silent_maximum = |plan: &mut Plan| {
        plan.objects[1].interact = 1;
        plan.objects[1].values.gain_range = (SILENCE, SILENCE);
    };
    assert_eq!(with(silent_maximum), broken(6, 3, 1));
    let front_on_kind_1 = |plan: &mut Plan| plan.packs[0].kind = 1;
    assert_eq!(with(front_on_kind_1), Verdict::Accepted);
    let with_offset = |plan: &mut Plan| {
        plan.packs[0].kind = 1;
        plan.objects[1].values.offset = 0;
    };
    assert_eq!(with(with_offset), broken(17, 3, 1));
}

#[test]
fn reading_10_no_pack_is_for_objects_only() {
    assert_eq!(with(|plan| plan.tracks[0].pack = NO_PACK), broken(5, 5, 0));
}

#[test]
fn reading_11_namings_are_counted() {
    let content_in_no_programme = |plan: &mut Plan| {
        plan.add_content(1);
    };
    assert_eq!(with(content_in_no_programme), broken(11, 3, 1));
    assert_eq!(with_parent(|plan| plan.objects[0].children = vec![1, 2, 2]), broken(11, 3, 2));
    let span_of_two = |plan: &mut Plan| {
        plan.add_sets(0, &[ValueSet::NONE; 2]);
        plan.objects[2].set_span = (1, 1);
    };
    assert_eq!(with(span_of_two), broken(11, 7, 1));
}

#[test]
fn reading_12_bad_children() {
    let kind_3_with_children = |plan: &mut Plan| {
        plan.objects[0].children = vec![1];
        plan.objects[1].children = vec![2];
    };
    assert_eq!(with_parent(kind_3_with_children), broken(13, 3, 1));
    let without_pack = |plan: &mut Plan| {
        plan.objects[0].children = vec![1];
        plan.make_parent(1, vec![2]);
    };
    assert_eq!(with_parent(without_pack), broken(13, 3, 0));
}

#[test]
fn reading_13_the_place_of_bad_tracks_is_the_object() {
    assert_eq!(with(|plan| plan.tracks[0].ordinal = 1), broken(14, 3, 0));
}

#[test]
fn reading_14_a_present_gain_of_0_below_top() {
    assert_eq!(with_parent(|plan| plan.objects[2].values.gain = 0), broken(15, 3, 2));
}

#[test]
fn reading_15_an_inherited_offset_is_none_of_the_set() {
    let inherited = |plan: &mut Plan| {
        plan.packs[0].front = 0;
        plan.objects[1].values.offset = 10;
        plan.add_sets(1, &[ValueSet::NONE]);
    };
    assert_eq!(with(inherited), broken(17, 3, 1));
}

#[test]
fn reading_16_ranges_of_sets() {
    let set_of_wider_range = |gain: i16| {
        move |plan: &mut Plan| {
            plan.objects[1].interact = 1;
            plan.objects[1].values.gain_range = (-10, 10);
            let values = Values { gain, gain_range: (-20, 20), ..Values::NONE };
            plan.add_sets(1, &[ValueSet { own: 1, values }]);
        }
    };
    assert_eq!(with(set_of_wider_range(10)), Verdict::Accepted);
    assert_eq!(with(set_of_wider_range(11)), broken(18, 7, 0));
    let gain_without_range = |plan: &mut Plan| {
        let values = Values { gain: SILENCE, ..Values::NONE };
        plan.add_sets(1, &[ValueSet { own: 0, values }]);
    };
    assert_eq!(with(gain_without_range), Verdict::Accepted);
}

#[test]
fn reading_17_the_place_is_the_object_that_lists() {
    assert_eq!(with(|plan| plan.objects[1].complements = vec![1]), broken(19, 3, 1));
    let in_two_lists = |plan: &mut Plan| {
        plan.objects[1].complements = vec![0];
        plan.objects[2].complements = vec![0];
    };
    assert_eq!(with(in_two_lists), broken(19, 3, 1));
}

#[test]
fn reading_18_absent_differs_from_0() {
    let group = |plan: &mut Plan| plan.objects[2].complements = vec![0, 1];
    assert_eq!(with(group), Verdict::Accepted);
    let one_gain = |plan: &mut Plan| {
        group(plan);
        plan.objects[1].values.gain = 0;
    };
    assert_eq!(with(one_gain), broken(20, 3, 2));
    let one_set_gain = |plan: &mut Plan| {
        group(plan);
        (0..3).for_each(|object| plan.add_sets(object, &[ValueSet::NONE]));
        plan.value_sets[1].values.gain = 0;
        plan.programmes[1].sets = vec![0, 1, 2];
    };
    assert_eq!(with(one_set_gain), broken(22, 1, 1));
}

#[test]
fn reading_19_nothing_else_is_asked() {
    let unused = |plan: &mut Plan| {
        plan.add_pack(3, 1, 0);
        plan.stray_entries = vec![7, 7];
        plan.shares_entries = true;
    };
    assert_eq!(with(unused), Verdict::Accepted);
}

#[test]
fn reading_20_counted_tracks_are_entries() {
    let children_and_others = |children: u16| {
        with_parent(|plan| {
            for _ in 2..children {
                let child = plan.add_object(0);
                plan.objects[0].children.push(child);
            }
            let object = plan.add_object(0);
            plan.include(object);
        })
    };
    assert_eq!(children_and_others(15), Verdict::Accepted);
    assert_eq!(children_and_others(16), broken(24, 0, 0));
}
