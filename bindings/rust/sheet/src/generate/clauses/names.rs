//! Clauses of rules 9, 11 and 12.

use super::bases::{interactive_with_set, parent_and_children, single_objects};
use super::Clause;
use crate::build::{language, Plan, ValueSet};

/// Clauses of rules 9, 11 and 12.
pub fn clauses() -> Vec<Clause> {
    [labels(), object_namings(), many_namings(), spans(), contents()]
        .into_iter()
        .flatten()
        .collect()
}

fn labels() -> Vec<Clause> {
    let labels = ["fra", "deu", "nld"].map(language);
    let mut neighbour = Plan::sheet_a();
    neighbour.programmes[0].labels = labels.to_vec();
    neighbour.contents[0].labels = labels.to_vec();
    vec![
        Clause::of_plan((9, "programme label twice"), (1, 0), neighbour.clone(), |plan| {
            plan.programmes[0].labels.push(language("fra"))
        }),
        Clause::of_plan((9, "content label twice"), (2, 0), neighbour, |plan| {
            plan.contents[0].labels.push(language("nld"))
        }),
    ]
}

fn object_namings() -> Vec<Clause> {
    let changed = |what, object, neighbour: Plan, breach: fn(&mut Plan)| {
        Clause::of_plan((11, what), (3, object), neighbour, breach)
    };
    vec![
        changed("object named by nothing", 1, Plan::sheet_a(), |plan| {
            plan.add_object(0);
        }),
        changed("object named by two contents", 1, single_objects(1, 2), |plan| {
            plan.include(1);
        }),
        changed("object named by two contents, one unused", 0, single_objects(1, 2), |plan| {
            plan.add_content(0);
        }),
        changed("object named by content and child list", 1, parent_and_children(), |plan| {
            plan.include(1);
        }),
        changed("object named twice in a child list", 2, parent_and_children(), |plan| {
            plan.objects[0].children.push(2)
        }),
        changed("object named by two child lists", 1, two_parents(), |plan| {
            plan.objects[3].children.push(1)
        }),
        changed("child lists of one run", 1, two_parents(), |plan| {
            plan.objects[3].children = plan.objects[0].children.clone();
            plan.shares_entries = true;
        }),
        changed("object that names itself", 0, Plan::sheet_a(), |plan| {
            plan.objects[0].children.push(0)
        }),
    ]
}

/// Objects 0 and 3 as parents: of 1 and 2, and of 4.
fn two_parents() -> Plan {
    let mut plan = parent_and_children();
    let parent = plan.add_parent(vec![4]);
    plan.add_object(0);
    plan.include(parent);
    plan
}

/// Namings that come to 1 in counters of 8 and of 16 bits.
fn many_namings() -> Vec<Clause> {
    let named_often = |lists: u16, entries: usize| {
        let mut plan = single_objects(0, 1);
        for _ in 0..lists {
            let parent = plan.add_parent(vec![0; entries]);
            plan.include(parent);
        }
        plan.shares_entries = true;
        plan
    };
    let clause = |what, lists, entries| {
        let mut neighbour = Plan::sheet_a();
        neighbour.level = 0;
        let broken = named_often(lists, entries);
        Clause::of_plans((11, what), (3, 0), neighbour, broken)
    };
    vec![clause("object named 257 times", 1, 256), clause("object named 65537 times", 64, 1024)]
}

fn spans() -> Vec<Clause> {
    let mut neighbour = single_objects(1, 2);
    neighbour.add_sets(0, &[ValueSet::NONE; 2]);
    neighbour.add_sets(1, &[ValueSet::NONE; 2]);
    let changed = |what, set, breach: fn(&mut Plan)| {
        Clause::of_plan((11, what), (7, set), neighbour.clone(), breach)
    };
    vec![
        Clause::of_plan(
            (11, "only set in no span"),
            (7, 0),
            interactive_with_set(ValueSet::NONE),
            |plan| plan.objects[0].set_span = (1, 0),
        ),
        changed("set in no span", 3, |plan| plan.objects[1].set_span.1 = 1),
        changed("set in two spans", 1, |plan| plan.objects[1].set_span = (1, 3)),
        changed("spans that overlap wholly", 0, |plan| {
            plan.objects[1].set_span = (0, 4);
        }),
    ]
}

fn contents() -> Vec<Clause> {
    vec![
        Clause::of_plan(
            (12, "content twice in a programme"),
            (1, 0),
            single_objects(1, 2),
            |plan| plan.programmes[0].contents = vec![0, 1, 0],
        ),
        Clause::of_plan((12, "content in no programme"), (2, 1), single_objects(1, 2), |plan| {
            plan.programmes[0].contents = vec![0]
        }),
    ]
}
