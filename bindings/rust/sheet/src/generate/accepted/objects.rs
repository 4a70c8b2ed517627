//! Random packs, tracks and objects.

use super::values;
use super::Budget;
use crate::build::{word, Pack, Plan, Track, ValueSet};
use crate::generate::random::Random;

/// A group, or a top object in no group; the first member leads.
pub struct Unit {
    /// The top objects.
    pub members: Vec<Member>,
    /// How many value sets the members have in common.
    pub common_sets: usize,
}

/// A top object of a unit.
pub struct Member {
    /// Its index.
    pub object: u16,
    /// The content that names it.
    pub content: u16,
    /// Its value sets, each with its number among the unit's common ones, if it is one.
    pub sets: Vec<(Option<usize>, ValueSet)>,
}

/// Adds packs of both kinds, and at least one track for each of their channels.
pub fn add_packs(random: &mut Random, plan: &mut Plan, budget: &Budget) {
    plan.add_pack(3, 1, 1);
    plan.add_pack(3, 1, random.word() % 2);
    while plan.tracks.len() < budget.tracks && random.chance(80) {
        let left = budget.tracks - plan.tracks.len();
        let channels = word(random.between(1, budget.channels.min(left)));
        let front = random.word() % 2;
        match random.chance(50) {
            true => plan.add_pack(1, channels, front),
            false => plan.add_pack(3, 1, front),
        };
    }
    while plan.tracks.len() < budget.tracks && random.chance(60) {
        plan.tracks.push(random.pick(&plan.tracks));
    }
    random.shuffle(&mut plan.tracks);
}

/// Adds groups and single top objects until part of the budget is used.
pub fn add_units(random: &mut Random, plan: &mut Plan, budget: &Budget) -> Vec<Unit> {
    let mut units = Vec::new();
    let mut left = *budget;
    while left.units > 0 && left.top_objects > 0 && left.counted_tracks > 0 {
        units.push(add_unit(random, plan, &mut left));
    }
    units
}

/// What all members of a unit have alike.
struct Common {
    kind: u16,
    interact: bool,
    /// All members are on front packs, or on packs of kind 1.
    front: bool,
}

fn add_unit(random: &mut Random, plan: &mut Plan, left: &mut Budget) -> Unit {
    let common = Common {
        kind: random.pick(&kinds_that_fit(plan, left)),
        interact: random.chance(60),
        front: random.chance(40),
    };
    let objects = add_top_objects(random, plan, &common, left);
    let offsets = common.front && common.kind == 3;
    let values = values::object_values(random, common.interact, offsets);
    for &object in &objects {
        plan.objects[usize::from(object)].interact = common.interact.into();
        plan.objects[usize::from(object)].values = values;
    }
    plan.objects[usize::from(objects[0])].complements = objects[1..].to_vec();
    let common_sets = random.between(0, left.sets_of_an_object.min(3));
    let sets: Vec<ValueSet> = (0..common_sets)
        .map(|_| values::value_set(random, &values, common.interact, offsets))
        .collect();
    let member = |object| member(random, plan, object, &sets, left.sets_of_an_object);
    Unit { members: objects.into_iter().map(member).collect(), common_sets }
}

/// Adds one top object, or several for a group, and takes them off the budget.
fn add_top_objects(
    random: &mut Random,
    plan: &mut Plan,
    common: &Common,
    left: &mut Budget,
) -> Vec<u16> {
    let number = match random.chance(50) {
        true => random.between(1, left.top_objects.min(5)),
        false => 1,
    };
    left.units -= 1;
    left.top_objects -= number;
    left.objects -= number;
    let objects: Vec<u16> =
        (0..number).map(|_| add_top_object(random, plan, common, left)).collect();
    left.counted_tracks -= objects.iter().map(|&object| size(plan, object)).max().unwrap_or(0);
    objects
}

/// The common sets and some that only this object has, in a random order.
fn member(
    random: &mut Random,
    plan: &Plan,
    object: u16,
    common: &[ValueSet],
    most: usize,
) -> Member {
    let record = &plan.objects[usize::from(object)];
    let pack = plan.packs.get(usize::from(record.pack));
    let offsets = pack.is_some_and(|pack| pack.kind == 3 && pack.front == 1);
    let mut sets: Vec<_> =
        common.iter().enumerate().map(|(number, &set)| (Some(number), set)).collect();
    let full = random.chance(10);
    while sets.len() < most && (full || random.chance(40)) {
        let interact = record.interact == 1;
        sets.push((None, values::value_set(random, &record.values, interact, offsets)));
    }
    random.shuffle(&mut sets);
    Member { object, content: 0, sets }
}

/// Kind 3 always fits, as a pack of kind 3 has one channel.
fn kinds_that_fit(plan: &Plan, left: &Budget) -> Vec<u16> {
    let fits = |pack: &&Pack| usize::from(pack.channels) <= left.counted_tracks;
    plan.packs.iter().filter(fits).map(|pack| pack.kind).collect()
}

fn add_top_object(random: &mut Random, plan: &mut Plan, common: &Common, left: &mut Budget) -> u16 {
    let room = left.objects - left.top_objects;
    let most = room.min(left.children).min(left.counted_tracks);
    let any_front = common.kind == 3 && !common.front;
    if any_front && most > 0 && random.chance(40) {
        let number = random.between(1, most.min(5));
        left.objects -= number;
        let children = (0..number).map(|_| add_object(random, plan, left, 3, false)).collect();
        return plan.add_parent(children);
    }
    add_object(random, plan, left, common.kind, common.front)
}

/// Adds an object on a pack that fits, with a random track for each channel.
fn add_object(random: &mut Random, plan: &mut Plan, left: &Budget, kind: u16, front: bool) -> u16 {
    let suits = |pack: &Pack| {
        pack.kind == kind
            && usize::from(pack.channels) <= left.counted_tracks
            && (kind == 1 || !front || pack.front == 1)
    };
    let packs: Vec<usize> = (0..plan.packs.len()).filter(|&p| suits(&plan.packs[p])).collect();
    let pack = word(random.pick(&packs));
    let object = plan.add_object(pack);
    let tracks = (0..plan.packs[usize::from(pack)].channels)
        .map(|ordinal| pick_track(random, plan, pack, ordinal))
        .collect();
    let record = &mut plan.objects[usize::from(object)];
    record.tracks = tracks;
    random.shuffle(&mut record.tracks);
    object
}

fn pick_track(random: &mut Random, plan: &Plan, pack: u16, ordinal: u16) -> u16 {
    let suits = |track: &Track| track.pack == pack && track.ordinal == ordinal;
    let tracks: Vec<usize> = (0..plan.tracks.len()).filter(|&t| suits(&plan.tracks[t])).collect();
    word(random.pick(&tracks))
}

/// How many tracks an object counts for.
fn size(plan: &Plan, object: u16) -> usize {
    let record = &plan.objects[usize::from(object)];
    let of_children = record.children.iter().map(|&child| size(plan, child)).sum::<usize>();
    record.tracks.len() + of_children
}
