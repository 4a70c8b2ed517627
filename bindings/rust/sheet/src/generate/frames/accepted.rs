//! Random accepted lists.

use super::{Block, Plan};
use crate::generate::random::Random;
use crate::second::frames::LEAST_LENGTH;

/// In so many of a hundred lists an initialising block stands first.
const INITIALISED: usize = 40;
/// Of a hundred blocks so many have no length.
const ZEROS: [usize; 5] = [0, 20, 50, 90, 100];

/// A random accepted list.
pub fn plan(random: &mut Random) -> Plan {
    let mut plan = Plan::of_lengths(&lengths(random));
    if plan.blocks.is_empty() || random.chance(INITIALISED) {
        plan.blocks.insert(0, initialising(random));
    }
    plan
}

/// An initialising block of any start and length.
pub fn initialising(random: &mut Random) -> Block {
    Block { start: any(random), length: any(random), third: mark(random) }
}

/// Any number; small ones and those near a boundary are frequent.
pub fn any(random: &mut Random) -> u32 {
    match random.below(3) {
        0 => random.below(30_000) as u32,
        1 => random.pick(&[0, 1, LEAST_LENGTH - 1, LEAST_LENGTH, 1 << 31, u32::MAX]),
        _ => random.bits() as u32,
    }
}

/// A third number of an initialising block: mostly 1.
pub fn mark(random: &mut Random) -> u32 {
    match random.below(4) {
        0 => random.pick(&[2, 256, 65_536, 1 << 24, 1 << 31, u32::MAX]),
        1 => (random.bits() as u32).max(1),
        _ => 1,
    }
}

/// Lengths that add up to a number of 32 bits; none in one case of twenty.
fn lengths(random: &mut Random) -> Vec<u32> {
    let number = match random.below(20) {
        0 => 0,
        1..=3 => 1,
        4 => random.between(30, 150),
        _ => random.between(2, 12),
    };
    let mut left = random.pick(&[60_000, 2_000_000, u32::MAX, u32::MAX]);
    let zeros = random.pick(&ZEROS);
    let length = |_| {
        let length = if random.chance(zeros) { 0 } else { length(random, left) };
        left -= length;
        length
    };
    (0..number).map(length).collect()
}

/// A length up to what is left, at times all of it; 0 if too little is left.
fn length(random: &mut Random, left: u32) -> u32 {
    if left < LEAST_LENGTH {
        return 0;
    }
    let up_to = |random: &mut Random, most: u32| {
        random.between(LEAST_LENGTH as usize, most.min(left) as usize) as u32
    };
    match random.below(16) {
        0 => left,
        1..=2 => up_to(random, left),
        3..=6 => LEAST_LENGTH,
        7 => up_to(random, LEAST_LENGTH + 1),
        _ => up_to(random, 40_000),
    }
}
