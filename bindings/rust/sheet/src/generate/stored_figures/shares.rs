//! Sheets that rule 24 refuses: shares of lone objects, groups and children at levels 1 and 2.

use super::Named;
use crate::build::{word, Plan};

/// What a top object consists of.
#[derive(Clone, Copy)]
enum Size {
    /// Channels of a pack of kind 1.
    Channels(u16),
    /// Children on a pack of kind 3.
    Children(u16),
}

use Size::{Channels, Children};

/// All of them by name.
pub fn sheets() -> Vec<Named> {
    let named = |(what, level, plan): (&str, u16, Plan)| {
        (format!("level-{level}-{what}"), Plan { level, ..plan })
    };
    [level_1(), level_2()].into_iter().flatten().map(named).collect()
}

/// Top objects in order, then their children. A group is a leader, then those it lists.
fn plan(sizes: &[Size], groups: &[&[u16]]) -> Plan {
    let mut plan = Plan::new(1);
    let objects = plan.add_pack(3, 1, 0);
    for &size in sizes {
        let object = match size {
            Channels(channels) => {
                let pack = plan.add_pack(1, channels, 0);
                plan.add_object(pack)
            }
            Children(_) => plan.add_parent(Vec::new()),
        };
        plan.add_content(object);
    }
    for (object, &size) in sizes.iter().enumerate() {
        if let Children(children) = size {
            let children = (0..children).map(|_| plan.add_object(objects)).collect();
            plan.objects[object].children = children;
        }
    }
    for group in groups {
        plan.objects[usize::from(group[0])].complements = group[1..].to_vec();
    }
    plan.add_programme((0..word(sizes.len())).collect());
    plan
}

/// More than 16 counted tracks.
fn level_1() -> Vec<(&'static str, u16, Plan)> {
    let five = [Channels(3), Channels(5), Children(4), Channels(2), Channels(6)];
    vec![
        ("two-lone-objects", 1, plan(&[Channels(5), Channels(12)], &[])),
        ("five-lone-objects", 1, plan(&five, &[])),
        ("leader-after-its-member", 1, plan(&five, &[&[3, 0]])),
        ("leader-is-the-largest", 1, plan(&[Channels(9), Channels(8), Channels(8)], &[&[0, 1]])),
        ("leader-is-the-smallest", 1, plan(&[Channels(1), Channels(9), Channels(8)], &[&[0, 1]])),
        ("member-with-children-is-the-largest", 1, {
            plan(&[Children(2), Channels(8), Children(9)], &[&[0, 2]])
        }),
        ("leader-with-children-is-the-largest", 1, {
            plan(&[Channels(1), Children(9), Children(8), Children(2)], &[&[2, 3]])
        }),
        ("lone-object-with-children", 1, plan(&[Channels(10), Children(7)], &[])),
        ("members-of-one-size", 1, plan(&[Channels(6); 5], &[&[4, 0, 1]])),
        ("two-groups", 1, {
            plan(&[Channels(7), Channels(2), Channels(10), Channels(9)], &[&[3, 0], &[1, 2]])
        }),
        ("no-lone-object", 1, {
            plan(&[Channels(1), Children(16), Children(1), Channels(1)], &[&[2, 1], &[3, 0]])
        }),
    ]
}

/// More than 28 counted tracks.
fn level_2() -> Vec<(&'static str, u16, Plan)> {
    vec![
        ("two-lone-objects", 2, plan(&[Channels(24), Channels(5)], &[])),
        ("lone-objects-with-children", 2, plan(&[Children(20), Children(9)], &[])),
        ("leader-after-its-member", 2, {
            plan(&[Channels(10), Channels(11), Channels(18), Channels(3)], &[&[3, 1, 0]])
        }),
        ("group-and-children", 2, {
            plan(&[Children(12), Children(13), Channels(16)], &[&[1, 0]])
        }),
        ("two-groups", 2, {
            let sizes = [Children(3), Children(14), Channels(4), Channels(15), Children(1)];
            plan(&sizes, &[&[4, 0, 1], &[2, 3]])
        }),
        ("fifteen-shares", 2, {
            let mut sizes = [Children(2); 16];
            sizes[0] = Children(1);
            plan(&sizes, &[&[15, 0]])
        }),
    ]
}
