//! Clauses of rules 16 to 18.

use super::bases::{
    front, interactive, interactive_with_set, parent_and_children, set_with_gain, set_with_ranges,
    OWN_1_WITHOUT_RANGES,
};
use super::Clause;
use crate::build::{Plan, ValueSet, Values, NO_RANGE, SILENCE};

/// Clauses of rules 16 to 18.
pub fn clauses() -> Vec<Clause> {
    [
        without_interaction(),
        object_offsets(),
        set_offsets(),
        object_ranges(),
        effective_values(),
        own_values(),
    ]
    .into_iter()
    .flatten()
    .collect()
}

fn without_interaction() -> Vec<Clause> {
    let not_interactive = |what, neighbour: Plan| {
        Clause::of_plan((16, what), (3, 0), neighbour, |plan| plan.objects[0].interact = 0)
    };
    let mut with_gain_range = interactive();
    with_gain_range.objects[0].values.offset_range = NO_RANGE;
    let mut with_offset_range = interactive();
    with_offset_range.objects[0].values.gain_range = NO_RANGE;
    let mut with_own = interactive_with_set(OWN_1_WITHOUT_RANGES);
    with_own.objects[0].values = Values::NONE;
    vec![
        not_interactive("gain range", with_gain_range),
        not_interactive("offset range", with_offset_range),
        not_interactive("set with own 1", with_own),
    ]
}

fn object_offsets() -> Vec<Clause> {
    let with_offset = || {
        let mut plan = front();
        plan.objects[0].values.offset = 0;
        plan
    };
    let with_range = || {
        let mut plan = interactive();
        plan.objects[0].values.gain_range = NO_RANGE;
        plan
    };
    let changed = |what, neighbour: Plan, breach: fn(&mut Plan)| {
        Clause::of_plan((17, what), (3, 0), neighbour, breach)
    };
    vec![
        changed("offset on front 0", with_offset(), |plan| plan.packs[0].front = 0),
        changed("offset on kind 1", with_offset(), |plan| plan.packs[0].kind = 1),
        changed("offset with children", parent_and_children(), |plan| {
            plan.objects[0].values.offset = 10
        }),
        changed("offset range on front 0", with_range(), |plan| plan.packs[0].front = 0),
        changed("offset range on kind 1", with_range(), |plan| plan.packs[0].kind = 1),
        changed("offset range with children", parent_and_children(), |plan| {
            plan.objects[0].interact = 1;
            plan.objects[0].values.offset_range = (-5, 5);
        }),
    ]
}

fn set_offsets() -> Vec<Clause> {
    let without_front = |what, set: ValueSet| {
        let mut neighbour = interactive_with_set(set);
        neighbour.objects[0].values = Values::NONE;
        Clause::of_plan((17, what), (7, 0), neighbour, |plan| plan.packs[0].front = 0)
    };
    let mut with_offset = ValueSet::NONE;
    with_offset.values.offset = 0;
    vec![
        without_front("set's offset on front 0", with_offset),
        without_front("set's offset range on front 0", set_with_ranges(NO_RANGE, (0, 0))),
    ]
}

/// Accepted at the end of the object's range, broken one further.
fn object_ranges() -> Vec<Clause> {
    let gain = |what, accepted, broken| {
        let mut neighbour = interactive();
        neighbour.objects[0].values.gain = accepted;
        Clause::of_plan((18, what), (3, 0), neighbour, |plan| plan.objects[0].values.gain = broken)
    };
    let offset = |what, accepted, broken| {
        let mut neighbour = interactive();
        neighbour.objects[0].values.offset = accepted;
        Clause::of_plan((18, what), (3, 0), neighbour, |plan| {
            plan.objects[0].values.offset = broken
        })
    };
    let mut silent = interactive();
    silent.objects[0].values.gain = SILENCE;
    silent.objects[0].values.gain_range.0 = SILENCE;
    vec![
        gain("gain above its range", 60, 61),
        gain("gain below its range", -60, -61),
        gain("silence below its range", -60, SILENCE),
        Clause::of_plan((18, "silence below -600"), (3, 0), silent, |plan| {
            plan.objects[0].values.gain_range.0 = -600
        }),
        offset("offset above its range", 100, 101),
        offset("offset below its range", -100, -101),
    ]
}

/// A set's effective value, the object's, leaves the range of the set's own.
fn effective_values() -> Vec<Clause> {
    let inherited = |what, values: Values, breach: fn(&mut Values)| {
        let mut neighbour = interactive_with_set(set_with_ranges((-40, 40), (-50, 50)));
        neighbour.objects[0].values.gain = values.gain;
        neighbour.objects[0].values.offset = values.offset;
        Clause::of_plan((18, what), (7, 0), neighbour, |plan| {
            breach(&mut plan.value_sets[0].values)
        })
    };
    let at = |gain, offset| Values { gain, offset, ..Values::NONE };
    vec![
        inherited("object's gain above a set's range", at(40, 0), |values| {
            values.gain_range.1 = 39
        }),
        inherited("object's gain below a set's range", at(-40, 0), |values| {
            values.gain_range.0 = -39
        }),
        inherited("object's offset above a set's range", at(0, 50), |values| {
            values.offset_range.1 = 49
        }),
        inherited("object's offset below a set's range", at(0, -50), |values| {
            values.offset_range.0 = -49
        }),
        inherited("set's gain above its own range", at(0, 0), |values| values.gain = 41),
        inherited("set's silence below its own range", at(0, 0), |values| values.gain = SILENCE),
        inherited("set's offset below its own range", at(0, 0), |values| values.offset = -51),
    ]
}

/// A set's own value leaves the object's range, with own 0, with a wider range of its own
/// and with own 1 but no range.
fn own_values() -> Vec<Clause> {
    let gain = |what, mut set: ValueSet, accepted, broken| {
        set.values.gain = accepted;
        Clause::of_plan((18, what), (7, 0), interactive_with_set(set), |plan| {
            plan.value_sets[0].values.gain = broken
        })
    };
    let offset = |what, mut set: ValueSet, accepted, broken| {
        set.values.offset = accepted;
        Clause::of_plan((18, what), (7, 0), interactive_with_set(set), |plan| {
            plan.value_sets[0].values.offset = broken
        })
    };
    let wider = set_with_ranges((SILENCE, 210), (-300, 300));
    let without = OWN_1_WITHOUT_RANGES;
    let inheriting = set_with_gain(0);
    vec![
        gain("set's gain above the object's range, own 0", inheriting, 60, 61),
        gain("set's gain above the object's range, wider own", wider, 60, 61),
        gain("set's silence below the object's range", wider, -60, SILENCE),
        gain("set's gain above the object's range, no own", without, 60, 61),
        offset("set's offset above the object's range, own 0", inheriting, 100, 101),
        offset("set's offset below the object's range, wider own", wider, -100, -101),
        offset("set's offset below the object's range, no own", without, -100, -101),
    ]
}
