//! Random sheets that are accepted by construction, at every level.

mod objects;
mod programmes;
mod values;

use self::programmes::Codes;
pub(super) use self::values::object_values;

use super::random::Random;
use crate::build::{word, Pack, Plan, Track};

/// How much a sheet may hold; at levels 1 and 2 no more than the level's limits.
#[derive(Clone, Copy)]
struct Budget {
    programmes: usize,
    top_objects: usize,
    objects: usize,
    /// Groups and top objects in no group.
    units: usize,
    tracks: usize,
    counted_tracks: usize,
    channels: usize,
    children: usize,
    labels: usize,
    sets_of_an_object: usize,
}

const LEVEL_0: Budget = Budget {
    programmes: 20,
    top_objects: 40,
    objects: 120,
    units: 30,
    tracks: 90,
    counted_tracks: 70,
    channels: 40,
    children: 40,
    labels: 12,
    sets_of_an_object: 20,
};

const LEVEL_1: Budget = Budget {
    programmes: 8,
    top_objects: 16,
    objects: 48,
    units: 16,
    tracks: 32,
    counted_tracks: 16,
    channels: 12,
    children: 16,
    labels: 4,
    sets_of_an_object: 8,
};

const LEVEL_2: Budget = Budget {
    programmes: 16,
    top_objects: 28,
    objects: 84,
    units: 16,
    tracks: 56,
    counted_tracks: 28,
    channels: 24,
    children: 28,
    labels: 8,
    sets_of_an_object: 16,
};

/// Leaves room for a few more records at level 1.
const SMALL: Budget = Budget {
    programmes: 3,
    top_objects: 6,
    objects: 14,
    units: 5,
    tracks: 14,
    counted_tracks: 8,
    channels: 4,
    children: 4,
    labels: 3,
    sets_of_an_object: 3,
};

/// The budget of a level, 0 to 2.
fn budget(level: u16) -> Budget {
    match level {
        0 => LEVEL_0,
        1 => LEVEL_1,
        _ => LEVEL_2,
    }
}

/// A random accepted sheet of the level, 0 to 2.
pub fn plan(random: &mut Random, level: u16) -> Plan {
    let budget = reduced(random, budget(level));
    within(random, level, budget)
}

/// A random accepted sheet with room for a few more records.
pub fn small_plan(random: &mut Random, level: u16) -> Plan {
    let budget = reduced(random, SMALL);
    within(random, level, budget)
}

/// A random sheet as large as the limits of a level or slightly larger, else accepted.
pub fn plan_near_limits(random: &mut Random, level: u16) -> Plan {
    let limits = budget(level);
    let mut near = |limit: usize| limit + random.below(10) / 8;
    let budget = Budget {
        programmes: near(limits.programmes),
        top_objects: near(limits.top_objects),
        objects: near(limits.objects),
        units: near(limits.units),
        tracks: near(limits.tracks),
        counted_tracks: near(limits.counted_tracks),
        channels: near(limits.channels),
        children: near(limits.children),
        labels: near(limits.labels),
        sets_of_an_object: near(limits.sets_of_an_object),
    };
    within(random, level, budget)
}

/// A random sheet of level 1 or 2, accepted but for so many counted tracks more than its level
/// has, if there are objects enough for them.
pub(super) fn plan_of_many_tracks(random: &mut Random, level: u16, more: usize) -> Plan {
    let limits = budget(level);
    let budget = Budget {
        programmes: random.between(1, limits.programmes),
        counted_tracks: limits.counted_tracks + more,
        ..limits
    };
    within(random, level, budget)
}

fn within(random: &mut Random, level: u16, budget: Budget) -> Plan {
    let mut plan = Plan::new(level);
    objects::add_packs(random, &mut plan, &budget);
    let mut units = objects::add_units(random, &mut plan, &budget);
    let codes = Codes::random(random);
    programmes::add_contents(random, &mut plan, &mut units, &budget, codes);
    programmes::add_sets(random, &mut plan, &units);
    programmes::add_programmes(random, &mut plan, &units, &budget, codes);
    renumber_objects(random, &mut plan);
    add_unused(random, &mut plan, &budget);
    plan
}

/// The whole budget in one of four sheets, a part of it in the others.
fn reduced(random: &mut Random, budget: Budget) -> Budget {
    let mut part = |whole: usize| match random.chance(25) {
        true => whole,
        false => random.between(1, whole),
    };
    Budget {
        programmes: part(budget.programmes),
        top_objects: part(budget.top_objects),
        units: part(budget.units),
        counted_tracks: part(budget.counted_tracks),
        ..budget
    }
}

/// Numbers the objects in a random order.
pub(super) fn renumber_objects(random: &mut Random, plan: &mut Plan) {
    let mut order: Vec<usize> = (0..plan.objects.len()).collect();
    random.shuffle(&mut order);
    let mut numbers = vec![0; order.len()];
    for (number, &object) in order.iter().enumerate() {
        numbers[object] = word(number);
    }
    let renumber = |index: &mut u16| *index = numbers[usize::from(*index)];
    plan.objects = order.iter().map(|&object| plan.objects[object].clone()).collect();
    for object in &mut plan.objects {
        object.children.iter_mut().for_each(renumber);
        object.complements.iter_mut().for_each(renumber);
    }
    plan.contents.iter_mut().for_each(|content| renumber(&mut content.object));
}

/// Tracks, packs and entries that nothing names, and lists that share entries.
fn add_unused(random: &mut Random, plan: &mut Plan, budget: &Budget) {
    while plan.tracks.len() < budget.tracks && random.chance(40) {
        let pack = word(random.below(plan.packs.len()));
        plan.tracks.push(Track { pack, ordinal: random.word() });
    }
    while random.chance(30) {
        let channels = word(random.between(1, budget.channels));
        plan.packs.push(Pack { kind: 1, channels, front: random.word() % 2 });
    }
    while random.chance(50) {
        plan.stray_entries.push(random.word());
    }
    plan.shares_entries = random.chance(50);
}
