//! The sheets that the stored scripts are played on.

use crate::build::{language, Object, Plan, Track, ValueSet, Values, ABSENT, SILENCE};
use crate::generate::clauses::bases::{
    group, pair_with_all_values, parent_and_children, set_with_gain, set_with_ranges,
    single_objects, OWN_1_WITHOUT_RANGES,
};
use crate::generate::honest;

/// The sheets by name.
pub fn sheets() -> Vec<(&'static str, Vec<u8>)> {
    let play = include_bytes!("../../../../../../examples/play.sheet");
    vec![
        ("a", Plan::sheet_a().bytes()),
        ("level-0", level_0().bytes()),
        ("not-accepted", not_accepted().bytes()),
        ("no-bytes", Vec::new()),
        ("mixed", mixed().bytes()),
        ("play", play.to_vec()),
        ("group", led_by_its_last().bytes()),
        ("group-with-sets", group_with_sets().bytes()),
        ("children", children().bytes()),
        ("parent-in-group", parent_in_group().bytes()),
        ("ranges", ranges().bytes()),
        ("sets", sets().bytes()),
        ("wide-pack", wide_pack().bytes()),
        ("full", honest::full().bytes()),
    ]
}

/// A at level 0.
fn level_0() -> Plan {
    let mut plan = Plan::sheet_a();
    plan.level = 0;
    plan
}

/// A with ordinal 1, which breaks rule 14.
fn not_accepted() -> Plan {
    let mut plan = Plan::sheet_a();
    plan.tracks[0].ordinal = 1;
    plan
}

/// Objects of many sorts in three programmes, at level 1:
///
/// - pack 0 is a front pack of kind 3 with tracks 0 and 3, pack 1 has tracks 1 and 2;
/// - object 0 (track 0) leads object 2 (track 3): gain 10 in -60 to 60, no offset in -100
///   to 100, and a set each of gain 20 in a range of its own, -20 to 40;
/// - object 1 has tracks 2 and 1, gain -30 and no ranges;
/// - object 3 has children 5 (track 3) and 4 (track 0), and a gain range from silence to 0;
/// - programme 0 includes 0, 1 and 2 without sets, programme 1 includes 2 and 3 with the
///   set of 2, programme 2 includes 0 and 2 with both sets.
pub fn mixed() -> Plan {
    let mut plan = Plan::new(1);
    plan.add_pack(3, 1, 1);
    plan.add_pack(1, 2, 0);
    plan.tracks.push(Track { pack: 0, ordinal: 0 });
    plan.add_object(0);
    plan.add_object(1);
    plan.add_object(0);
    plan.add_parent(vec![5, 4]);
    plan.add_object(0);
    plan.add_object(0);
    set_mixed_values(&mut plan.objects);
    let set =
        ValueSet { own: 1, values: Values { gain: 20, gain_range: (-20, 40), ..Values::NONE } };
    plan.add_sets(0, &[set]);
    plan.add_sets(2, &[set]);
    for object in [1, 0, 2, 3] {
        plan.add_content(object);
    }
    plan.contents[2].language = language("fra");
    plan.add_programme(vec![0, 1, 2]);
    plan.add_programme(vec![2, 3]);
    plan.add_programme(vec![1, 2]);
    plan.programmes[1].sets = vec![1];
    plan.programmes[2].sets = vec![0, 1];
    plan
}

fn set_mixed_values(objects: &mut [Object]) {
    objects[1].tracks = vec![2, 1];
    objects[2].tracks = vec![3];
    objects[5].tracks = vec![3];
    let speech =
        Values { gain: 10, gain_range: (-60, 60), offset: ABSENT, offset_range: (-100, 100) };
    for object in [0, 2] {
        objects[object].interact = 1;
        objects[object].values = speech;
    }
    objects[0].complements = vec![2];
    objects[1].values.gain = -30;
    objects[3].interact = 1;
    objects[3].values = Values { gain_range: (SILENCE, 0), ..Values::NONE };
}

/// Objects 0 to 3 with a track each; 3 leads the group of all, with gain 10 in -60 to 60. Programme
/// 0 includes all, programme 1 the member 1 alone, programme 2 the leader alone.
fn led_by_its_last() -> Plan {
    let mut plan = single_objects(1, 4);
    plan.tracks = vec![plan.tracks[0]; 4];
    for (object, track) in plan.objects.iter_mut().zip(0..) {
        object.tracks = vec![track];
        object.interact = 1;
        object.values = Values { gain: 10, gain_range: (-60, 60), ..Values::NONE };
    }
    plan.objects[3].complements = vec![2, 0, 1];
    plan.add_programme(vec![1]);
    plan.add_programme(vec![3]);
    plan
}

/// A pair with every value, and sets of other values and ranges in programme 0; programme 1 names
/// no sets, programme 2 includes object 1 alone, with its set.
fn group_with_sets() -> Plan {
    let mut plan = pair_with_all_values();
    plan.add_programme(vec![0, 1]);
    plan.add_programme(vec![1]);
    plan.programmes[2].sets = vec![1];
    plan
}

/// Object 0 with children 3, 1 and 2; object 4; object 7 with children 6 and 5. Child n has track
/// n, but 6 has track 1 too; object 4 has tracks 4 and 0. Programme 0 includes 7, 4 and 0,
/// programme 1 only 7.
fn children() -> Plan {
    let mut plan = Plan::new(1);
    let single = plan.add_pack(3, 1, 0);
    plan.tracks.extend([Track { pack: single, ordinal: 0 }; 3]);
    let pair = plan.add_pack(1, 2, 0);
    plan.tracks.swap(0, 5);
    plan.add_parent(vec![3, 1, 2]);
    for track in 1..=3 {
        add_object_with(&mut plan, single, vec![track]);
    }
    add_object_with(&mut plan, pair, vec![4, 0]);
    add_object_with(&mut plan, single, vec![5]);
    add_object_with(&mut plan, single, vec![1]);
    plan.add_parent(vec![6, 5]);
    for object in [7, 4, 0] {
        plan.add_content(object);
    }
    plan.add_programme(vec![0, 1, 2]);
    plan.add_programme(vec![0]);
    plan
}

fn add_object_with(plan: &mut Plan, pack: u16, tracks: Vec<u16>) -> u16 {
    let object = plan.add_object(pack);
    plan.objects[usize::from(object)].tracks = tracks;
    object
}

/// Object 0 with children 1 and 2 leads object 3; all have gains from silence to 210.
fn parent_in_group() -> Plan {
    let mut plan = parent_and_children();
    let other = plan.add_object(0);
    plan.include(other);
    plan.objects[0].complements = vec![other];
    for object in [0, 3] {
        plan.objects[object].interact = 1;
        plan.objects[object].values.gain_range = (SILENCE, 210);
    }
    plan
}

/// Single objects of level 2: 0 with the widest ranges, 1 with gains from -600 to 0 and silence
/// below them, 2 with ranges of 0 alone, 3 with offsets alone, 4 that may move but has no range, 5
/// with gain and offset that stay.
fn ranges() -> Plan {
    let mut plan = single_objects(2, 6);
    let values = [
        Values { gain: 0, gain_range: (SILENCE, 210), offset: 0, offset_range: (-300, 300) },
        Values { gain: -600, gain_range: (-600, 0), ..Values::NONE },
        Values { gain_range: (0, 0), offset_range: (0, 0), ..Values::NONE },
        Values { gain: SILENCE, offset: 150, offset_range: (0, 200), ..Values::NONE },
        Values { gain: 210, ..Values::NONE },
        Values { gain: -45, offset: -300, ..Values::NONE },
    ];
    for (object, values) in plan.objects.iter_mut().zip(values) {
        object.values = values;
        object.interact = 1;
    }
    plan.objects[5].interact = 0;
    plan
}

/// One object of gain 20 in -60 to 60 and offset -50 in -100 to 100, with a programme for each of
/// its sets: 1 of another gain, 2 of narrower ranges, 3 of wider ranges, 4 of no range. Programme
/// 0 names no set.
fn sets() -> Plan {
    let mut plan = single_objects(1, 1);
    plan.objects[0].interact = 1;
    plan.objects[0].values =
        Values { gain: 20, gain_range: (-60, 60), offset: -50, offset_range: (-100, 100) };
    let narrower = set_with_ranges((-10, 30), (-60, 0));
    let wider = set_with_ranges((SILENCE, 210), (-300, 300));
    plan.add_sets(0, &[set_with_gain(-60), narrower, wider, OWN_1_WITHOUT_RANGES]);
    for set in 0..4 {
        plan.add_programme(vec![0]);
        plan.programmes[usize::from(set) + 1].sets = vec![set];
    }
    plan
}

/// A bed of 24 channels whose tracks are listed from the last to the first, and a group of two
/// parents with 4 children each, tracks 25 to 32, at level 2: 28 entries.
fn wide_pack() -> Plan {
    let mut plan = group(2, 2);
    let bed = plan.add_pack(1, 24, 0);
    let bed = plan.add_object(bed);
    plan.objects[usize::from(bed)].tracks.reverse();
    plan.include(bed);
    for (parent, first) in [(0, 25), (1, 29)] {
        plan.tracks.extend([Track { pack: 0, ordinal: 0 }; 4]);
        let children = (first..first + 4).map(|track| add_object_with(&mut plan, 0, vec![track]));
        let children = children.collect();
        plan.make_parent(parent, children);
    }
    plan
}
