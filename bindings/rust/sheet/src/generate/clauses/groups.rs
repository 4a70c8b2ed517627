//! Clauses of rules 19 to 21.

use super::bases::{front, group, pair_with_all_values, parent_and_children, single_objects};
use super::Clause;
use crate::build::{Object, Plan, ABSENT};

/// Clauses of rules 19 to 21.
pub fn clauses() -> Vec<Clause> {
    [complements(), differences(), kinds(), partly_included()].into_iter().flatten().collect()
}

fn complements() -> Vec<Clause> {
    let changed = |what, leader, neighbour: Plan, breach: fn(&mut Plan)| {
        Clause::of_plan((19, what), (3, leader), neighbour, breach)
    };
    let mut two_pairs = single_objects(1, 4);
    two_pairs.objects[0].complements = vec![1];
    two_pairs.objects[2].complements = vec![3];
    vec![
        changed("complement that isn't top", 0, parent_and_children(), |plan| {
            plan.objects[0].complements = vec![1]
        }),
        changed("complement that lists", 0, group(1, 3), |plan| {
            plan.objects[0].complements = vec![1];
            plan.objects[1].complements = vec![2];
        }),
        changed("objects that list each other", 0, group(1, 2), |plan| {
            plan.objects[1].complements = vec![0]
        }),
        changed("object that lists itself", 0, front(), |plan| {
            plan.objects[0].complements = vec![0]
        }),
        changed("complement twice in a list", 0, group(1, 3), |plan| {
            plan.objects[0].complements = vec![1, 2, 1]
        }),
        changed("complement in two lists", 0, two_pairs, |plan| {
            plan.objects[2].complements.push(1)
        }),
    ]
}

/// Member 1 of a pair with one word changed, or the leader 0.
fn differences() -> Vec<Clause> {
    let changed = |what, breach: fn(&mut Object)| {
        Clause::of_plan((20, what), (3, 0), pair_with_all_values(), |plan| {
            breach(&mut plan.objects[1])
        })
    };
    let leader_interacts =
        Clause::of_plan((20, "interact"), (3, 0), group(1, 2), |plan| plan.objects[0].interact = 1);
    let absent = Clause::of_plan((20, "gain 0 and no gain"), (3, 0), group(1, 3), |plan| {
        plan.objects[2].values.gain = 0
    });
    vec![
        leader_interacts,
        absent,
        changed("gain", |member| member.values.gain = 6),
        changed("gain minimum", |member| member.values.gain_range.0 = -61),
        changed("gain maximum", |member| member.values.gain_range.1 = 61),
        changed("offset", |member| member.values.offset = -6),
        changed("no offset", |member| member.values.offset = ABSENT),
        changed("offset minimum", |member| member.values.offset_range.0 = -99),
        changed("offset maximum", |member| member.values.offset_range.1 = 99),
    ]
}

/// A pair of a parent and an object of a pack of kind 3, which becomes one of kind 1.
fn kinds() -> Vec<Clause> {
    let pair = |parent_leads: bool| {
        let mut plan = parent_and_children();
        let pack = plan.add_pack(3, 1, 0);
        let object = plan.add_object(pack);
        plan.include(object);
        match parent_leads {
            true => plan.objects[0].complements = vec![object],
            false => plan.objects[usize::from(object)].complements = vec![0],
        }
        plan
    };
    let to_kind_1 = |plan: &mut Plan| plan.packs[1].kind = 1;
    vec![
        Clause::of_plan((20, "kind of a member"), (3, 0), pair(true), to_kind_1),
        Clause::of_plan((20, "kind of the leader"), (3, 3), pair(false), to_kind_1),
    ]
}

fn partly_included() -> Vec<Clause> {
    let with_programme = |contents: Vec<u16>| {
        let mut plan = group(1, 3);
        plan.add_programme(contents);
        plan
    };
    let clause = |what, one: Vec<u16>, two: Vec<u16>| {
        Clause::of_plan((21, what), (1, 1), with_programme(one), |plan| {
            plan.programmes[1].contents = two
        })
    };
    vec![
        clause("leader and one of two members", vec![0], vec![0, 2]),
        clause("both members without their leader", vec![2], vec![2, 1]),
    ]
}
