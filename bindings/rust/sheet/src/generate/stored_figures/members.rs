//! Sheets that rule 20 refuses: each of the eight, in a member of a higher or a lower record than
//! its leader, and several at once.

use super::Named;
use crate::build::{Object, Plan, Values, ABSENT, NO_RANGE, SILENCE};

/// What the leader has, and every member that is like it.
const ALIKE: Values =
    Values { gain: 0, gain_range: (-60, 60), offset: -5, offset_range: (-100, 100) };

/// The same values, in ranges of which all words are others.
const OTHER_RANGES: Values = Values { gain_range: (-1, 1), offset_range: (-99, 99), ..ALIKE };

/// All of them by name.
pub fn sheets() -> Vec<Named> {
    let named = |(what, plan): (&str, Plan)| (what.to_string(), plan);
    let others = [orders(), kinds(), members(), groups()];
    single().into_iter().chain(others.into_iter().flatten().map(named)).collect()
}

/// Objects on front packs, all alike; the leader lists the others in the order given.
fn group(leader: usize, complements: &[u16]) -> Plan {
    let mut plan = Plan::new(1);
    let pack = plan.add_pack(3, 1, 1);
    for _ in 0..=complements.len() {
        let object = plan.add_object(pack);
        plan.add_content(object);
        plan.objects[usize::from(object)].interact = 1;
        plan.objects[usize::from(object)].values = ALIKE;
    }
    plan.objects[leader].complements = complements.to_vec();
    plan.add_programme((0..=complements.len() as u16).collect());
    plan
}

/// A change to a member.
type Change = fn(&mut Object);

fn single() -> Vec<Named> {
    let changes: [(&str, Change); 10] = [
        ("gain", |member| member.values.gain = -60),
        ("no-gain", |member| member.values.gain = ABSENT),
        ("offset", |member| member.values.offset = 5),
        ("no-offset", |member| member.values.offset = ABSENT),
        ("gain-minimum", |member| member.values.gain_range.0 = SILENCE),
        ("gain-maximum", |member| member.values.gain_range.1 = 0),
        ("no-gain-range", |member| member.values.gain_range = NO_RANGE),
        ("offset-minimum", |member| member.values.offset_range.0 = -300),
        ("offset-maximum", |member| member.values.offset_range.1 = 0),
        ("no-offset-range", |member| member.values.offset_range = NO_RANGE),
    ];
    let both = changes.into_iter().flat_map(|(what, change)| {
        [("higher", 0, [1, 2]), ("lower", 2, [1, 0])].map(|(which, leader, complements)| {
            let mut plan = group(leader, &complements);
            change(&mut plan.objects[usize::from(complements[1])]);
            (format!("{what}-of-a-{which}-member"), plan)
        })
    });
    both.chain(interact()).collect()
}

/// With interact 0 there is no range, so the leader has none.
fn interact() -> Vec<Named> {
    let of = |leader: u16| {
        let mut plan = group(0, &[1]);
        plan.objects.iter_mut().for_each(|object| {
            object.values = Values { gain_range: NO_RANGE, offset_range: NO_RANGE, ..ALIKE };
        });
        plan.objects[0].interact = leader;
        plan.objects[1].interact = 1 - leader;
        (format!("interact-{leader}-of-the-leader"), plan)
    };
    vec![of(0), of(1)]
}

/// Several are unequal in one member.
fn orders() -> Vec<(&'static str, Plan)> {
    let changes: [(&str, Change); 10] = [
        ("gain-then-offset", |member| {
            member.values = Values { gain: -1, offset: ABSENT, ..ALIKE };
        }),
        ("gain-then-ranges", |member| member.values = Values { gain: -1, ..OTHER_RANGES }),
        ("offset-then-gain-minimum", |member| {
            member.values = Values { offset: 0, gain_range: (-61, 60), ..ALIKE };
        }),
        ("offset-then-ranges", |member| member.values = Values { offset: 0, ..OTHER_RANGES }),
        ("gain-minimum-then-gain-maximum", |member| member.values.gain_range = (-1, 1)),
        ("gain-minimum-then-offset-range", |member| {
            member.values = Values { gain_range: (-600, 60), ..OTHER_RANGES };
        }),
        ("gain-maximum-then-offset-minimum", |member| {
            member.values = Values { gain_range: (-60, 210), offset_range: (-99, 100), ..ALIKE };
        }),
        ("gain-maximum-then-offset-maximum", |member| {
            member.values = Values { gain_range: (-60, 59), offset_range: (-100, 300), ..ALIKE };
        }),
        ("offset-minimum-then-offset-maximum", |member| member.values.offset_range = (-300, 300)),
        ("all-words", |member| {
            member.interact = 0;
            member.values = Values::NONE;
        }),
    ];
    let of = |(what, change): (&'static str, Change)| {
        let mut plan = group(0, &[1]);
        change(&mut plan.objects[1]);
        (what, plan)
    };
    let mut interact_and_gain = interact().swap_remove(0).1;
    interact_and_gain.objects[1].values.gain = 60;
    changes.into_iter().map(of).chain([("interact-then-gain", interact_and_gain)]).collect()
}

/// Object 0 has children, object 1 is on a pack of kind 1; one of them leads the other.
fn pair_of_kinds(leader: usize) -> Plan {
    let mut plan = Plan::new(2);
    let [three, one] = [plan.add_pack(3, 1, 1), plan.add_pack(1, 2, 0)];
    plan.add_parent(vec![2, 3]);
    for pack in [one, three, three] {
        plan.add_object(pack);
    }
    let contents = vec![plan.add_content(0), plan.add_content(1)];
    plan.objects[leader].complements = vec![1 - leader as u16];
    plan.add_programme(contents);
    plan
}

fn kinds() -> Vec<(&'static str, Plan)> {
    let of = |leader: usize, change: Change| {
        let mut plan = pair_of_kinds(leader);
        change(&mut plan.objects[1]);
        plan
    };
    let mut without_offset = front_and_speakers();
    without_offset.objects[0].values.offset = ABSENT;
    let with_range = |gain_range| {
        let mut plan = front_and_speakers();
        plan.objects[0].values = Values { gain_range, ..plan.objects[1].values };
        plan
    };
    vec![
        ("kind-3-of-a-leader-with-children", pair_of_kinds(0)),
        ("kind-3-of-a-member-with-children", pair_of_kinds(1)),
        ("interact-then-kind", of(0, |object| object.interact = 1)),
        ("gain-then-kind", of(1, |object| object.values.gain = 0)),
        ("gain-minimum-then-kind", with_range((SILENCE, 60))),
        ("gain-maximum-then-kind", with_range((-60, 0))),
        ("offset-then-kind", front_and_speakers()),
        ("offset-minimum-then-kind", without_offset),
    ]
}

/// Object 0 leads object 1, which is on a pack of kind 1 and so has no offset.
fn front_and_speakers() -> Plan {
    let mut plan = group(0, &[1]);
    let pack = plan.add_pack(1, 1, 1);
    plan.objects[1].pack = pack;
    plan.objects[1].tracks = plan.tracks_of_pack(pack);
    plan.objects[1].values = Values { offset: ABSENT, offset_range: NO_RANGE, ..ALIKE };
    plan
}

/// Several members are unlike the leader: the first in its list is told.
fn members() -> Vec<(&'static str, Plan)> {
    let of = |complements: &[u16], changes: &[(usize, Change)]| {
        let mut plan = group(2, complements);
        for (member, change) in changes {
            change(&mut plan.objects[*member]);
        }
        plan
    };
    let last: Change = |member| member.values.offset_range.1 = 99;
    let first: Change = |member| member.values.gain = 60;
    vec![
        ("members-in-rising-order", of(&[0, 1, 3], &[(0, last), (1, first)])),
        ("members-in-falling-order", of(&[3, 1, 0], &[(0, first), (1, last)])),
        ("members-first-and-last", of(&[1, 3, 0], &[(1, last), (0, first)])),
        ("members-last-alone", of(&[3, 0, 1], &[(1, last)])),
        ("members-all", of(&[1, 0, 3], &[(0, first), (1, last), (3, first)])),
    ]
}

/// Of several leaders the one with the lowest record is told, at any level.
fn groups() -> Vec<(&'static str, Plan)> {
    let two_pairs = || {
        let mut plan = group(1, &[2, 3, 0]);
        plan.objects[1].complements = vec![3];
        plan.objects[2].complements = vec![0];
        plan.objects[0].values.gain = 1;
        plan
    };
    let mut both = two_pairs();
    both.level = 0;
    both.objects[3].values.offset_range.0 = 0;
    both.objects[3].values.offset = 0;
    let mut also_24 = two_pairs();
    for _ in 0..2 {
        let pack = also_24.add_pack(1, 12, 0);
        let object = also_24.add_object(pack);
        also_24.include(object);
    }
    vec![("second-of-two-groups", two_pairs()), ("two-groups", both), ("also-24", also_24)]
}
