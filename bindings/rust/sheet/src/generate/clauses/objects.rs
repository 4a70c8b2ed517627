//! Clauses of rules 13 to 15.

use super::bases::{front, parent_and_children, single_objects};
use super::Clause;
use crate::build::{Plan, ValueSet, SILENCE};

/// Clauses of rules 13 to 15.
pub fn clauses() -> Vec<Clause> {
    [pack_or_children(), children(), tracks(), below_top()].into_iter().flatten().collect()
}

fn pack_or_children() -> Vec<Clause> {
    vec![
        Clause::of_plan((13, "pack and children"), (3, 0), parent_and_children(), |plan| {
            plan.objects[0].pack = 0
        }),
        Clause::of_plan((13, "neither pack nor children"), (3, 0), front(), |plan| {
            plan.make_parent(0, vec![]);
        }),
    ]
}

/// The place of a bad child is its parent, but a child with pack and children is bad by
/// itself too.
fn children() -> Vec<Clause> {
    vec![
        Clause::of_plan((13, "child without a pack"), (3, 0), parent_and_children(), |plan| {
            plan.objects[0].children = vec![1];
            plan.make_parent(1, vec![2]);
        }),
        Clause::of_plan(
            (13, "child with a pack of kind 1"),
            (3, 0),
            parent_and_children(),
            |plan| plan.packs[0].kind = 1,
        ),
        Clause::of_plan(
            (13, "child with pack and children"),
            (3, 1),
            parent_and_children(),
            |plan| {
                plan.objects[0].children = vec![1];
                plan.objects[1].children = vec![2];
            },
        ),
        Clause::of_plan((13, "children of each other"), (3, 1), parent_and_children(), |plan| {
            plan.objects.swap(0, 1);
            plan.make_parent(1, vec![2]);
            plan.make_parent(2, vec![1]);
        }),
    ]
}

fn tracks() -> Vec<Clause> {
    let stereo = || {
        let mut plan = Plan::sheet_a();
        let pack = plan.add_pack(1, 2, 0);
        let object = plan.add_object(pack);
        plan.include(object);
        plan
    };
    let changed =
        |what, breach: fn(&mut Plan)| Clause::of_plan((14, what), (3, 1), stereo(), breach);
    vec![
        changed("no tracks", |plan| plan.objects[1].tracks.clear()),
        changed("too few tracks", |plan| plan.objects[1].tracks = vec![1]),
        changed("too many tracks", |plan| plan.objects[1].tracks.push(2)),
        changed("track of another pack", |plan| plan.objects[1].tracks[0] = 0),
        changed("ordinal that is no channel", |plan| plan.tracks[2].ordinal = 2),
        changed("ordinal 65535", |plan| plan.tracks[1].ordinal = 65535),
        changed("two tracks of one channel", |plan| plan.tracks[2].ordinal = 0),
        changed("one track twice", |plan| plan.objects[1].tracks = vec![1, 1]),
        Clause::of_plan((14, "ordinal 1 in A"), (3, 0), Plan::sheet_a(), |plan| {
            plan.tracks[0].ordinal = 1
        }),
        Clause::of_plan((14, "tracks and children"), (3, 0), parent_and_children(), |plan| {
            plan.objects[0].tracks = vec![0]
        }),
    ]
}

/// What an object that isn't top may not have, on child 2 of a parent.
fn below_top() -> Vec<Clause> {
    let changed = |what, breach: fn(&mut Plan)| {
        Clause::of_plan((15, what), (3, 2), parent_and_children(), breach)
    };
    let with_complement =
        Clause::of_plan((15, "child with complements"), (3, 2), pair_with_child(), |plan| {
            plan.objects[2].complements = vec![0]
        });
    vec![
        with_complement,
        changed("child with interact 1", |plan| plan.objects[2].interact = 1),
        changed("child with sets", |plan| plan.add_sets(2, &[ValueSet::NONE])),
        changed("child with a gain", |plan| plan.objects[2].values.gain = -20),
        changed("child with gain 0", |plan| plan.objects[2].values.gain = 0),
        changed("child with silence", |plan| plan.objects[2].values.gain = SILENCE),
        changed("child with an offset", |plan| plan.objects[2].values.offset = 0),
        changed("child with a gain range", |plan| plan.objects[2].values.gain_range = (0, 0)),
        changed("child with an offset range", |plan| plan.objects[2].values.offset_range = (0, 0)),
    ]
}

/// Two top objects, object 1 with the only child, object 2.
fn pair_with_child() -> Plan {
    let mut plan = single_objects(1, 2);
    let child = plan.add_object(0);
    plan.make_parent(1, vec![child]);
    plan
}
