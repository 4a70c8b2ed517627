//! Plans with groups of which a leader and a member may be unlike: rule 20.

use super::objects::{groups, is_on_front};
use super::values::{any_gain, any_gain_range, any_offset, any_offset_range};
use crate::build::{word, Plan, Values, ABSENT, NO_RANGE};
use crate::generate::accepted::{self, object_values, renumber_objects};
use crate::generate::random::Random;

/// A few groups, or an accepted plan, with one to four changes to members of its groups.
pub fn plan(random: &mut Random) -> Plan {
    let level = word(random.below(3));
    let mut plan = match random.below(4) {
        0 => accepted::plan(random, level),
        1 => accepted::small_plan(random, level),
        _ => few_groups(random, level),
    };
    let groups = groups(&plan);
    if groups.is_empty() {
        return plan;
    }
    for _ in 0..random.pick(&[1, 1, 2, 3, 4]) {
        let group = &groups[random.below(groups.len())];
        let member = random.pick(group);
        change(random, &mut plan, member);
    }
    plan
}

/// Packs of both kinds, with front and without.
struct Packs {
    front: u16,
    objects: u16,
    speakers: u16,
}

/// One to three groups of two to four, and up to two lone objects, numbered in any order.
fn few_groups(random: &mut Random, level: u16) -> Plan {
    let mut plan = Plan::new(level);
    let packs = Packs {
        front: plan.add_pack(3, 1, 1),
        objects: plan.add_pack(3, 1, 0),
        speakers: plan.add_pack(1, 2, 0),
    };
    let mut contents = Vec::new();
    for _ in 0..random.between(1, 3) {
        let number = random.between(2, 4);
        contents.extend(add_group(random, &mut plan, &packs, number));
    }
    for _ in 0..random.below(3) {
        contents.extend(add_group(random, &mut plan, &packs, 1));
    }
    plan.add_programme(contents);
    renumber_objects(random, &mut plan);
    plan
}

/// Adds a group whose members are alike; gives their contents.
fn add_group(random: &mut Random, plan: &mut Plan, packs: &Packs, number: usize) -> Vec<u16> {
    let front = random.chance(60);
    let speakers = !front && random.chance(50);
    let interact = random.chance(75);
    let values = object_values(random, interact, front);
    let mut group = Vec::new();
    for _ in 0..number {
        let member = match front {
            true => plan.add_object(packs.front),
            false if speakers => plan.add_object(packs.speakers),
            false if random.chance(40) => {
                let child = plan.add_object(packs.objects);
                plan.add_parent(vec![child])
            }
            false => plan.add_object(packs.objects),
        };
        plan.objects[usize::from(member)].interact = interact.into();
        plan.objects[usize::from(member)].values = values;
        group.push(member);
    }
    random.shuffle(&mut group);
    plan.objects[usize::from(group[0])].complements = group[1..].to_vec();
    group.iter().map(|&member| plan.add_content(member)).collect()
}

/// Changes one of the eight that a leader and its members have alike.
fn change(random: &mut Random, plan: &mut Plan, object: usize) {
    match random.below(8) {
        0 => plan.objects[object].interact ^= 1,
        1 => change_kind(random, plan, object),
        _ => {
            let offsets = is_on_front(plan, object);
            let interact = plan.objects[object].interact == 1;
            change_value(random, &mut plan.objects[object].values, interact, offsets);
        }
    }
}

/// Moves the object to a pack of the other kind, or to one without front, where it has no offsets.
fn change_kind(random: &mut Random, plan: &mut Plan, object: usize) {
    let pack = random.below(plan.packs.len());
    let tracks = plan.tracks_of_pack(word(pack));
    let record = &mut plan.objects[object];
    record.pack = word(pack);
    record.tracks = tracks;
    record.children.clear();
    if !is_on_front(plan, object) {
        let values = &mut plan.objects[object].values;
        *values = Values { offset: ABSENT, offset_range: NO_RANGE, ..*values };
    }
}

/// Changes the gain, the offset, one end of a range or a whole range.
fn change_value(random: &mut Random, values: &mut Values, interact: bool, offsets: bool) {
    let gain_range = if interact { any_gain_range(random) } else { NO_RANGE };
    let offset_range = if interact && offsets { any_offset_range(random) } else { NO_RANGE };
    let gains = [ABSENT, 0, any_gain(random)];
    let offset_values = [ABSENT, 0, any_offset(random)];
    match random.below(8) {
        0 => values.gain = random.pick(&gains),
        1 if offsets => values.offset = random.pick(&offset_values),
        2 => change_minimum(&mut values.gain_range, gain_range),
        3 => change_maximum(&mut values.gain_range, gain_range),
        4 => change_minimum(&mut values.offset_range, offset_range),
        5 => change_maximum(&mut values.offset_range, offset_range),
        6 => values.gain_range = gain_range,
        _ => values.offset_range = offset_range,
    }
}

/// Takes the minimum of the other range, where both are there.
fn change_minimum(range: &mut (i16, i16), other: (i16, i16)) {
    if *range != NO_RANGE && other != NO_RANGE {
        range.0 = other.0;
    }
}

/// Takes the maximum of the other range, where both are there.
fn change_maximum(range: &mut (i16, i16), other: (i16, i16)) {
    if *range != NO_RANGE && other != NO_RANGE {
        range.1 = other.1;
    }
}
