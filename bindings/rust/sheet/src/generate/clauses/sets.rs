//! Clauses of rule 22.

use super::bases::{
    group, group_with_sets, pair_with_all_values, set_with_gain, single_objects,
    OWN_1_WITHOUT_RANGES,
};
use super::Clause;
use crate::build::{Plan, ValueSet, Values, ABSENT};

/// Clauses of rule 22.
pub fn clauses() -> Vec<Clause> {
    [choices(), group_choices(), differences()].into_iter().flatten().collect()
}

/// Two objects with two sets each; programme 1 has object 1 only.
fn two_objects() -> Plan {
    let mut plan = single_objects(1, 2);
    plan.add_sets(0, &[set_with_gain(1), set_with_gain(2)]);
    plan.add_sets(1, &[set_with_gain(1), set_with_gain(2)]);
    plan.programmes[0].sets = vec![3, 0];
    plan.add_programme(vec![1]);
    plan.programmes[1].sets = vec![2];
    plan
}

fn choices() -> Vec<Clause> {
    let changed = |what, sets: Vec<u16>| {
        Clause::of_plan((22, what), (1, 1), two_objects(), |plan| plan.programmes[1].sets = sets)
    };
    vec![
        changed("set of an object not included", vec![2, 1]),
        changed("two sets of one object", vec![2, 3]),
        changed("one set twice", vec![3, 3]),
    ]
}

fn group_choices() -> Vec<Clause> {
    let set = set_with_gain(-10);
    let with_single_member = || {
        let mut plan = group_with_sets(1, 3, set);
        plan.add_programme(vec![1]);
        plan.programmes[1].sets = vec![1];
        plan
    };
    let mut unlike = group(1, 2);
    unlike.add_sets(0, &[set, set_with_gain(0)]);
    unlike.add_sets(1, &[set, ValueSet::NONE]);
    unlike.programmes[0].sets = vec![0, 2];
    vec![
        Clause::of_plan((22, "sets for two of three"), (1, 0), with_single_member(), |plan| {
            plan.programmes[0].sets = vec![0, 2]
        }),
        Clause::of_plan((22, "set for the leader only"), (1, 0), with_single_member(), |plan| {
            plan.programmes[0].sets = vec![0]
        }),
        Clause::of_plan((22, "gain 0 and no gain in a group"), (1, 0), unlike, |plan| {
            plan.programmes[0].sets = vec![1, 3]
        }),
    ]
}

/// Sets of a pair that differ in one of seven words.
fn differences() -> Vec<Clause> {
    let changed = |what, breach: fn(&mut Values)| {
        Clause::of_plan((22, what), (1, 0), pair_with_all_values(), |plan| {
            breach(&mut plan.value_sets[1].values)
        })
    };
    let mut without_ranges = group_with_sets(1, 2, OWN_1_WITHOUT_RANGES);
    without_ranges.objects[0].interact = 1;
    without_ranges.objects[1].interact = 1;
    vec![
        Clause::of_plan((22, "sets that differ in own"), (1, 0), without_ranges, |plan| {
            plan.value_sets[0].own = 0
        }),
        changed("sets that differ in gain", |values| values.gain = -9),
        changed("sets that differ in gain minimum", |values| values.gain_range.0 = -39),
        changed("sets that differ in gain maximum", |values| values.gain_range.1 = 41),
        changed("sets that differ in offset", |values| values.offset = 21),
        changed("sets of which one has an offset", |values| values.offset = ABSENT),
        changed("sets that differ in offset minimum", |values| values.offset_range.0 = -51),
        changed("sets that differ in offset maximum", |values| values.offset_range.1 = 49),
    ]
}
