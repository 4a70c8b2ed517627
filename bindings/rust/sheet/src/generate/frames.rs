//! Lists of blocks, and frame lengths to them.

mod accepted;
mod damage;
mod each;
mod fixed;
/// Which classes lists met.
pub mod met;

use self::damage::DAMAGES;
use super::random::Random;
use crate::second::frames::{Broken, LEAST_LENGTH};

/// The seeds of the random lists that are compared.
const SEEDS: [u64; 3] = [2168, 2076, 65_534];

/// How a small list came about.
pub const SMALL: &str = "one of all small lists";

/// A list of numbers with a frame length, and its verdict where the construction settles it.
#[derive(Clone, Debug)]
pub struct Listed {
    /// How it came about.
    pub what: &'static str,
    /// The frame length.
    pub frame: u32,
    /// The numbers.
    pub numbers: Vec<u32>,
    /// The verdict.
    pub expected: Option<Result<(), Broken>>,
}

impl Listed {
    fn of(what: &'static str, plan: &Plan, expected: Result<(), Broken>) -> Listed {
        Listed { what, frame: plan.frame, numbers: plan.numbers(), expected: Some(expected) }
    }

    fn unsettled(what: &'static str, frame: u32, numbers: Vec<u32>) -> Listed {
        Listed { what, frame, numbers, expected: None }
    }
}

/// All lists that are compared: those of fixed contents, all small ones of a few numbers, and so
/// many random ones of each seed.
pub fn all(of_seed: usize) -> impl Iterator<Item = Listed> {
    let random = move |seed| RandomFrames::new(seed).take(of_seed);
    fixed::lists().into_iter().chain(each::lists()).chain(SEEDS.into_iter().flat_map(random))
}

/// Random lists without end, from a seed: one in four is accepted, half are damaged, the others may
/// be anything.
pub struct RandomFrames(Random);

impl RandomFrames {
    /// The lists of a seed.
    pub fn new(seed: u64) -> RandomFrames {
        RandomFrames(Random::new(seed))
    }
}

impl Iterator for RandomFrames {
    type Item = Listed;

    fn next(&mut self) -> Option<Listed> {
        let random = &mut self.0;
        Some(match random.below(4) {
            0 => Listed::of("accepted", &accepted::plan(random), Ok(())),
            1 => damage::unsettled(random),
            _ => damage::settled(random),
        })
    }
}

/// So many blocks, of which one in five has a length; the sum of up to four million keeps to 32
/// bits.
pub fn many(blocks: usize) -> Plan {
    let length = |place: usize| if place.is_multiple_of(5) { LEAST_LENGTH } else { 0 };
    Plan::of_lengths(&(0..blocks).map(length).collect::<Vec<_>>())
}

/// A list for each way to damage one.
pub fn damaged(random: &mut Random) -> Vec<Listed> {
    let ways = DAMAGES.into_iter().flatten();
    ways.map(|damage| damage.listed(random)).collect()
}

/// A block as its three numbers.
#[derive(Clone, Copy, Debug, PartialEq, Eq)]
pub struct Block {
    /// Its start in microseconds.
    pub start: u32,
    /// Its length in microseconds.
    pub length: u32,
    /// 0 if it isn't initialising, and any other number if it is.
    pub third: u32,
}

impl Block {
    /// Whether it is initialising.
    pub fn is_initialising(self) -> bool {
        self.third != 0
    }
}

/// A frame length, blocks, and one or two numbers that are left over, or none.
#[derive(Clone, Debug, PartialEq, Eq)]
pub struct Plan {
    /// The frame length in microseconds.
    pub frame: u32,
    /// The blocks.
    pub blocks: Vec<Block>,
    /// The numbers after the last block.
    pub left_over: Vec<u32>,
}

impl Plan {
    /// Blocks of these lengths, each at the sum of the earlier ones, in a frame of them all: sums
    /// are cut to 32 bits.
    pub fn of_lengths(lengths: &[u32]) -> Plan {
        let mut sum: u32 = 0;
        let block = |&length| {
            let start = sum;
            sum = sum.wrapping_add(length);
            Block { start, length, third: 0 }
        };
        let blocks = lengths.iter().map(block).collect();
        Plan { frame: sum, blocks, left_over: Vec::new() }
    }

    /// The same blocks in another frame.
    pub fn in_frame(mut self, frame: u32) -> Plan {
        self.frame = frame;
        self
    }

    /// The same with a block put in at a place.
    pub fn with_block(mut self, place: usize, start: u32, length: u32, third: u32) -> Plan {
        self.blocks.insert(place, Block { start, length, third });
        self
    }

    /// The same with numbers after the blocks.
    pub fn with_left_over(mut self, left_over: &[u32]) -> Plan {
        self.left_over = left_over.to_vec();
        self
    }

    /// The same with another start in a block.
    pub fn with_start(mut self, place: usize, start: u32) -> Plan {
        self.blocks[place].start = start;
        self
    }

    /// The numbers of the blocks, and those that are left over.
    pub fn numbers(&self) -> Vec<u32> {
        let of_block = |block: &Block| [block.start, block.length, block.third];
        let mut numbers: Vec<u32> = self.blocks.iter().flat_map(of_block).collect();
        numbers.extend(&self.left_over);
        numbers
    }

    /// The input of `framecheck`.
    pub fn input(&self) -> Vec<u8> {
        input(self.frame, &self.numbers())
    }
}

/// The input of `framecheck` with this frame length and these numbers.
pub fn input(frame: u32, numbers: &[u32]) -> Vec<u8> {
    [&[frame], numbers].concat().into_iter().flat_map(u32::to_be_bytes).collect()
}
