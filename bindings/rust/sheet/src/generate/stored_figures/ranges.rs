//! Sheets that rule 18 refuses: each bound by each test, and several clashes at one place.

use super::Named;
use crate::build::{Plan, ValueSet, Values, ABSENT, NO_RANGE, SILENCE};

/// The ranges of object 1.
const OF_OBJECT: Values =
    Values { gain_range: (-60, 60), offset_range: (-100, 100), ..Values::NONE };
/// The ranges of object 1 where it may be silent.
const TO_SILENCE: Values = Values { gain_range: (SILENCE, 60), ..OF_OBJECT };
/// Narrower ranges of a set.
const NARROWER: Values = Values { gain_range: (-40, 40), offset_range: (-50, 50), ..Values::NONE };
/// Wider ranges of a set.
const WIDER: Values =
    Values { gain_range: (SILENCE, 210), offset_range: (-300, 300), ..Values::NONE };

/// All of them by name.
pub fn sheets() -> Vec<Named> {
    let named = |(what, plan): (&str, Plan)| (what.to_string(), plan);
    let others = [orders_of_an_object(), orders_of_a_set(), places(), ends(), later_rules()];
    passed().into_iter().chain(others.into_iter().flatten().map(named)).collect()
}

/// Two objects on a front pack; object 1 has the values and two sets, the second as given.
fn plan(values: Values, set: ValueSet) -> Plan {
    let mut plan = Plan::new(1);
    let pack = plan.add_pack(3, 1, 1);
    for _ in 0..2 {
        let object = plan.add_object(pack);
        plan.add_content(object);
        plan.objects[usize::from(object)].interact = 1;
    }
    plan.objects[1].values = values;
    plan.add_sets(1, &[ValueSet::NONE, set]);
    plan.add_programme(vec![0, 1]);
    plan
}

/// A set with ranges of its own.
fn own_1(values: Values) -> ValueSet {
    ValueSet { own: 1, values }
}

/// A set without ranges.
fn own_0(gain: i16, offset: i16) -> ValueSet {
    ValueSet { own: 0, values: Values { gain, offset, ..Values::NONE } }
}

/// How a value passes a range.
#[derive(Clone, Copy)]
enum Passing {
    GainBelow,
    Silence,
    GainAbove,
    OffsetBelow,
    OffsetAbove,
}

const ALL: [(&str, Passing); 5] = [
    ("gain-below", Passing::GainBelow),
    ("silence-below", Passing::Silence),
    ("gain-above", Passing::GainAbove),
    ("offset-below", Passing::OffsetBelow),
    ("offset-above", Passing::OffsetAbove),
];

/// The values with one that passes a range just so.
fn passing(values: Values, range: Values, how: Passing) -> Values {
    match how {
        Passing::GainBelow => Values { gain: range.gain_range.0 - 1, ..values },
        Passing::Silence => Values { gain: SILENCE, ..values },
        Passing::GainAbove => Values { gain: range.gain_range.1 + 1, ..values },
        Passing::OffsetBelow => Values { offset: range.offset_range.0 - 1, ..values },
        Passing::OffsetAbove => Values { offset: range.offset_range.1 + 1, ..values },
    }
}

/// Each bound passed, by each way in which values and ranges come together.
fn passed() -> Vec<Named> {
    let ways = |(what, how): (&str, Passing)| {
        let of_set = |range| passing(Values::NONE, range, how);
        let inheriting = ValueSet { own: 0, values: of_set(OF_OBJECT) };
        let plans = [
            ("object", plan(passing(OF_OBJECT, OF_OBJECT, how), ValueSet::NONE)),
            ("own-0", plan(OF_OBJECT, inheriting)),
            ("own-range", plan(OF_OBJECT, own_1(passing(NARROWER, NARROWER, how)))),
            ("object-in-own-range", plan(passing(TO_SILENCE, NARROWER, how), own_1(NARROWER))),
            ("wider-own-range", plan(OF_OBJECT, own_1(passing(WIDER, OF_OBJECT, how)))),
            ("no-own-range", plan(OF_OBJECT, own_1(of_set(OF_OBJECT)))),
        ];
        plans.map(|(way, plan)| (format!("{way}-{what}"), plan))
    };
    ALL.into_iter().flat_map(ways).collect()
}

fn orders_of_an_object() -> Vec<(&'static str, Plan)> {
    let of = |gain, offset| plan(Values { gain, offset, ..OF_OBJECT }, ValueSet::NONE);
    vec![
        ("object-gain-below-offset-below", of(-61, -101)),
        ("object-gain-above-offset-below", of(61, -101)),
        ("object-silence-below-offset-above", of(SILENCE, 101)),
    ]
}

fn orders_of_a_set() -> Vec<(&'static str, Plan)> {
    let narrow_gain = Values { offset_range: WIDER.offset_range, ..NARROWER };
    let narrow_offset = Values { gain_range: WIDER.gain_range, ..NARROWER };
    let of = |range: Values, gain, offset| plan(OF_OBJECT, own_1(Values { gain, offset, ..range }));
    let under = |gain, offset, set| plan(Values { gain, offset, ..OF_OBJECT }, set);
    let with = |range, gain, offset| own_1(Values { gain, offset, ..range });
    let in_object = |gain| under(gain, ABSENT, with(narrow_gain, ABSENT, -101));
    vec![
        ("set-own-0-gain-and-offset", plan(OF_OBJECT, own_0(-61, 101))),
        ("set-effective-gain-and-offset", of(NARROWER, 41, -51)),
        ("set-effective-gain-and-own-gain", of(NARROWER, -600, ABSENT)),
        ("set-effective-gain-and-own-offset", of(narrow_gain, -41, 101)),
        ("set-effective-offset-and-own-gain", of(narrow_offset, 61, 51)),
        ("set-effective-offset-and-own-silence", of(narrow_offset, SILENCE, -51)),
        ("set-effective-offset-and-own-offset", of(NARROWER, 0, 300)),
        ("set-own-gain-and-own-offset", of(WIDER, -61, -101)),
        ("set-all-four", of(NARROWER, 210, -300)),
        ("set-gain-of-object-and-own-offset", in_object(50)),
        ("set-offset-of-object-and-own-gain", under(0, 60, with(narrow_offset, 61, ABSENT))),
        ("set-both-values-of-object", under(41, 51, own_1(NARROWER))),
        ("set-gain-of-object-and-offset", under(-41, 0, with(NARROWER, ABSENT, 51))),
        ("set-gain-and-offset-of-object", under(0, -51, with(NARROWER, -41, ABSENT))),
    ]
}

/// Of several places the least, and with it its clash.
fn places() -> Vec<(&'static str, Plan)> {
    let mut object_after_set = plan(OF_OBJECT, own_0(61, ABSENT));
    let object = object_after_set.add_object(0);
    object_after_set.include(object);
    object_after_set.objects[2].interact = 1;
    object_after_set.objects[2].values = Values { offset: 101, ..OF_OBJECT };
    let mut two_objects = plan(Values { offset: -101, ..OF_OBJECT }, own_0(210, ABSENT));
    two_objects.objects[0].values = Values { gain: 0, offset: 100, ..OF_OBJECT };
    two_objects.objects[0].values.offset_range.1 = 99;
    let mut two_sets = plan(OF_OBJECT, own_0(ABSENT, 101));
    two_sets.value_sets[0].values.offset = -101;
    let mut lower_object_later_set = plan(OF_OBJECT, own_0(61, ABSENT));
    lower_object_later_set.objects[0].values = OF_OBJECT;
    lower_object_later_set.add_sets(0, &[own_0(ABSENT, -101)]);
    vec![
        ("place-object-before-set", object_after_set),
        ("place-lower-object", two_objects),
        ("place-lower-set", two_sets),
        ("place-lower-set-of-higher-object", lower_object_later_set),
    ]
}

/// Values and bounds at the ends of what is legal.
fn ends() -> Vec<(&'static str, Plan)> {
    let gain =
        |gain, range| plan(Values { gain, gain_range: range, ..Values::NONE }, ValueSet::NONE);
    let offset = |offset, range| {
        plan(Values { offset, offset_range: range, ..Values::NONE }, ValueSet::NONE)
    };
    let none = own_1(Values { gain_range: NO_RANGE, offset: 101, ..NARROWER });
    vec![
        ("end-silence-below-minus-600", gain(SILENCE, (-600, 0))),
        ("end-minus-600-below-minus-599", gain(-600, (-599, 210))),
        ("end-minus-1-below-0", gain(-1, (0, 0))),
        ("end-1-above-0", gain(1, (SILENCE, 0))),
        ("end-210-above-209", gain(210, (SILENCE, 209))),
        ("end-offset-minus-300-below-0", offset(-300, (0, 300))),
        ("end-offset-300-above-299", offset(300, (-300, 299))),
        ("end-set-with-one-range", plan(OF_OBJECT, none)),
    ]
}

/// Later rules are broken too.
fn later_rules() -> Vec<(&'static str, Plan)> {
    let mut unlike_members = plan(Values { gain: -61, ..OF_OBJECT }, ValueSet::NONE);
    unlike_members.objects[0].complements = vec![1];
    let mut many_tracks = plan(Values { offset: 101, ..OF_OBJECT }, ValueSet::NONE);
    for _ in 0..2 {
        let pack = many_tracks.add_pack(1, 12, 0);
        let object = many_tracks.add_object(pack);
        many_tracks.include(object);
    }
    vec![("also-20", unlike_members), ("also-24", many_tracks)]
}
