//! Lists of fixed contents: none, an initialising block alone, and long ones.

use super::{many, Listed, Plan};
use crate::second::frames::Broken::{BadBlock, BadTotal, InitialisingNotFirst};
use crate::second::frames::LEAST_LENGTH;

/// How many blocks the long lists have.
const MANY: usize = 30_000;
/// Numbers about the boundaries.
const NUMBERS: [u32; 7] = [0, 1, LEAST_LENGTH - 1, LEAST_LENGTH, 20_000, 1 << 31, u32::MAX];

/// All of them.
pub fn lists() -> Vec<Listed> {
    let mut lists = without_blocks();
    lists.extend(initialising_alone());
    lists.extend([Plan::of_lengths(&[0; MANY]), many(MANY)].into_iter().flat_map(long));
    lists.extend(as_many_as_the_bound());
    lists.extend(far_past_32_bits());
    lists
}

/// No block in any frame, with nothing left over, one number or two.
fn without_blocks() -> Vec<Listed> {
    let empty = |frame| Plan::of_lengths(&[]).in_frame(frame);
    let lists = NUMBERS.into_iter().flat_map(|frame| {
        [
            Listed::of("no block", &empty(frame), Err(BadTotal)),
            Listed::of("one number", &empty(frame).with_left_over(&[frame]), Err(BadBlock)),
            Listed::of("two numbers", &empty(frame).with_left_over(&[0, frame]), Err(BadBlock)),
        ]
    });
    lists.collect()
}

/// Only a frame of 0 has nothing but an initialising block, whatever its start and length.
fn initialising_alone() -> Vec<Listed> {
    let alone = |start, length, third| Plan::of_lengths(&[]).with_block(0, start, length, third);
    let pairs = NUMBERS.into_iter().flat_map(|one| NUMBERS.map(|other| (one, other)));
    let plans =
        pairs.flat_map(|(start, length)| [1, u32::MAX].map(|third| alone(start, length, third)));
    let in_frames = |plan: Plan| {
        NUMBERS.map(|frame| {
            let expected = if frame == 0 { Ok(()) } else { Err(BadTotal) };
            Listed::of("an initialising block alone", &plan.clone().in_frame(frame), expected)
        })
    };
    plans.flat_map(in_frames).collect()
}

/// A long list as it is, and broken at its ends and in the middle.
fn long(plan: Plan) -> Vec<Listed> {
    let plan = plan.with_block(0, 7, 4_999, 1);
    let frame = plan.frame;
    let [first, middle, last] = [1, MANY / 2, MANY];
    let list = |what, plan, expected| Listed::of(what, &plan, expected);
    let start = |place: usize| plan.blocks[place].start + 1;
    let mut lists = vec![list("many blocks", plan.clone(), Ok(()))];
    lists.extend([first, middle, last].into_iter().flat_map(|place| {
        [
            list(
                "many blocks, a bad start",
                plan.clone().with_start(place, start(place)),
                Err(BadBlock),
            ),
            list(
                "many blocks, two initialising",
                plan.clone().with_block(place, 0, 0, 1),
                Err(InitialisingNotFirst),
            ),
        ]
    }));
    lists.extend([
        list(
            "many blocks, another total",
            plan.clone().in_frame(frame.wrapping_sub(1)),
            Err(BadTotal),
        ),
        list(
            "many blocks, a number left over",
            plan.clone().with_left_over(&[frame]),
            Err(BadBlock),
        ),
    ]);
    lists
}

/// As many blocks as an accepted list may have: the last length takes what is left.
fn as_many_as_the_bound() -> Vec<Listed> {
    let rests = [0, 1, LEAST_LENGTH - 1];
    let lists = (1..=20).flat_map(|number| {
        rests.map(|rest| {
            let mut lengths = vec![LEAST_LENGTH; number];
            lengths[number - 1] += rest;
            lengths.insert(number / 2, 0);
            Listed::of(
                "as many blocks as may be",
                &Plan::of_lengths(&lengths).with_block(0, 0, 0, 1),
                Ok(()),
            )
        })
    });
    lists.collect()
}

/// Lengths whose sum is many times 2^32, with starts and a frame of which 32 bits are right.
fn far_past_32_bits() -> Vec<Listed> {
    let lists = [1 << 31, u32::MAX, u32::MAX - 4_999].into_iter().flat_map(|length| {
        [3, 4, 5, 1_000].map(|number| {
            let plan = Plan::of_lengths(&vec![length; number]);
            Listed::of("a sum far past 32 bits", &plan, Err(BadBlock))
        })
    });
    lists.collect()
}
