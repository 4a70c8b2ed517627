//! Small accepted sheets that clauses start from.

use crate::build::{language, word, Plan, ValueSet, Values, SILENCE};

/// A with its object on a pack of kind 3 with front 1.
pub fn front() -> Plan {
    let mut plan = Plan::sheet_a();
    plan.packs[0].kind = 3;
    plan.packs[0].front = 1;
    plan
}

/// An interactive object on a front pack, with a gain range and an offset range.
pub fn interactive() -> Plan {
    let mut plan = front();
    plan.objects[0].interact = 1;
    plan.objects[0].values.gain_range = (-60, 60);
    plan.objects[0].values.offset_range = (-100, 100);
    plan
}

/// The interactive object with one value set, which its programme names.
pub fn interactive_with_set(set: ValueSet) -> Plan {
    let mut plan = interactive();
    plan.add_sets(0, &[set]);
    plan.programmes[0].sets = vec![0];
    plan
}

/// A value set with own 0 and the gain.
pub fn set_with_gain(gain: i16) -> ValueSet {
    ValueSet { own: 0, values: Values { gain, ..Values::NONE } }
}

/// A value set with own 1 and the ranges.
pub fn set_with_ranges(gain_range: (i16, i16), offset_range: (i16, i16)) -> ValueSet {
    ValueSet { own: 1, values: Values { gain_range, offset_range, ..Values::NONE } }
}

/// Object 0 as parent of objects 1 and 2, which share a front pack.
pub fn parent_and_children() -> Plan {
    let mut plan = Plan::new(1);
    let pack = plan.add_pack(3, 1, 1);
    let parent = plan.add_parent(vec![1, 2]);
    plan.add_object(pack);
    plan.add_object(pack);
    let content = plan.add_content(parent);
    plan.add_programme(vec![content]);
    plan
}

/// A programme of `number` top objects on one front pack, in no group.
pub fn single_objects(level: u16, number: usize) -> Plan {
    let mut plan = Plan::new(level);
    let pack = plan.add_pack(3, 1, 1);
    for _ in 0..number {
        let object = plan.add_object(pack);
        plan.add_content(object);
    }
    plan.add_programme((0..word(number)).collect());
    plan
}

/// The top objects as one group, object 0 its leader.
pub fn group(level: u16, members: usize) -> Plan {
    let mut plan = single_objects(level, members);
    plan.objects[0].complements = (1..word(members)).collect();
    plan
}

/// A group whose members have one equal set each, all named by the programme.
pub fn group_with_sets(level: u16, members: usize, set: ValueSet) -> Plan {
    let mut plan = group(level, members);
    for object in 0..word(members) {
        plan.add_sets(object, &[set]);
    }
    plan.programmes[0].sets = (0..word(members)).collect();
    plan
}

/// A pair whose objects and named sets have every value that a pair may have.
pub fn pair_with_all_values() -> Plan {
    let set = ValueSet {
        own: 1,
        values: Values { gain: -10, gain_range: (-40, 40), offset: 20, offset_range: (-50, 50) },
    };
    let mut plan = group_with_sets(1, 2, set);
    for object in &mut plan.objects {
        object.interact = 1;
        object.values =
            Values { gain: 5, gain_range: (-60, 60), offset: -5, offset_range: (-100, 100) };
    }
    plan
}

/// One object and one set of which every word is present, with the widest ranges, and
/// one label each for programme and content.
pub fn all_words() -> Plan {
    let widest =
        Values { gain: 0, gain_range: (SILENCE, 210), offset: 0, offset_range: (-300, 300) };
    let mut plan = interactive_with_set(ValueSet { own: 1, values: widest });
    plan.objects[0].values = widest;
    plan.programmes[0].labels = vec![language("fra")];
    plan.contents[0].labels = vec![language("deu")];
    plan
}

/// A value set that grants no range, whatever the object's.
pub const OWN_1_WITHOUT_RANGES: ValueSet = ValueSet { own: 1, values: Values::NONE };
