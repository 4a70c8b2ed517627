//! Damage to accepted lists.

mod blocks;
mod misplaced;
mod totals;

use super::accepted::{any, plan};
use super::{Block, Listed, Plan};
use crate::generate::random::Random;
use crate::second::frames::{Broken, LEAST_LENGTH};

/// A way to break an accepted list.
pub struct Damage {
    what: &'static str,
    broken: Broken,
    /// Makes the change; None where the list doesn't lend itself to it.
    change: fn(&mut Plan, &mut Random) -> Option<()>,
}

/// All ways, by what is broken then.
pub const DAMAGES: [&[Damage]; 3] = [&misplaced::ALL, &blocks::ALL, &totals::ALL];

impl Damage {
    /// A random accepted list with this damage.
    pub fn listed(&self, random: &mut Random) -> Listed {
        loop {
            let mut plan = plan(random);
            if (self.change)(&mut plan, random).is_some() {
                return Listed::of(self.what, &plan, Err(self.broken));
            }
        }
    }
}

/// An accepted list with any damage.
pub fn settled(random: &mut Random) -> Listed {
    let kind = random.pick(&DAMAGES);
    kind[random.below(kind.len())].listed(random)
}

/// A list of which the construction doesn't settle the verdict.
pub fn unsettled(random: &mut Random) -> Listed {
    let mut plan = plan(random);
    match random.below(5) {
        0 => {
            random.shuffle(&mut plan.blocks);
            Listed::unsettled("blocks in any order", plan.frame, plan.numbers())
        }
        1 => twice_damaged(random, plan),
        2 => {
            let mut numbers = plan.numbers();
            numbers.truncate(random.below(numbers.len() + 1));
            Listed::unsettled("cut short", plan.frame, numbers)
        }
        3 => {
            let numbers = (0..random.below(10)).map(|_| any(random)).collect();
            Listed::unsettled("any numbers", any(random), numbers)
        }
        _ => other_numbers(random, &plan),
    }
}

/// Two ways of damage after one another, which may undo each other.
fn twice_damaged(random: &mut Random, mut plan: Plan) -> Listed {
    for _ in 0..2 {
        let kind = random.pick(&DAMAGES);
        let damage = &kind[random.below(kind.len())];
        // where it isn't possible, the list stays as it is
        let _ = (damage.change)(&mut plan, random);
    }
    Listed::unsettled("damaged twice", plan.frame, plan.numbers())
}

/// One to three numbers are others.
fn other_numbers(random: &mut Random, plan: &Plan) -> Listed {
    let mut numbers = [&[plan.frame][..], &plan.numbers()].concat();
    for _ in 0..random.between(1, 3) {
        let place = random.below(numbers.len());
        numbers[place] = match random.below(3) {
            0 => numbers[place] ^ 1 << random.below(32),
            1 => numbers[random.below(numbers.len())],
            _ => any(random),
        };
    }
    Listed::unsettled("other numbers", numbers[0], numbers[1..].to_vec())
}

/// A random block of those that are asked for.
fn place(
    plan: &Plan,
    random: &mut Random,
    is_meant: impl Fn(usize, Block) -> bool,
) -> Option<usize> {
    let blocks = plan.blocks.iter().enumerate();
    let meant = blocks.filter(|&(place, &block)| is_meant(place, block));
    let places: Vec<usize> = meant.map(|(place, _)| place).collect();
    (!places.is_empty()).then(|| random.pick(&places))
}

/// A random block that isn't initialising.
fn plain(plan: &Plan, random: &mut Random) -> Option<usize> {
    place(plan, random, |_, block| !block.is_initialising())
}

/// The same with a length.
fn long(plan: &Plan, random: &mut Random) -> Option<usize> {
    place(plan, random, |_, block| !block.is_initialising() && block.length != 0)
}

/// The initialising block, where it has a length.
fn initialising_length(plan: &Plan) -> Option<u32> {
    let first = plan.blocks.first()?;
    (first.is_initialising() && first.length != 0).then_some(first.length)
}

/// The block that makes the sum of all pass 32 bits, at the sum of the earlier ones.
fn block_past_32_bits(plan: &Plan, random: &mut Random) -> Option<Block> {
    let start = plan.frame;
    let least = start.wrapping_neg().max(LEAST_LENGTH);
    let length = random.between(least as usize, u32::MAX as usize) as u32;
    (start != 0).then_some(Block { start, length, third: 0 })
}
