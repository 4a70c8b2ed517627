//! Totals unlike the frame, and no block at all.

use super::{block_past_32_bits, initialising_length, Damage};
use crate::generate::frames::{Block, Plan};
use crate::generate::random::Random;
use crate::second::frames::{Broken, LEAST_LENGTH};

pub const ALL: [Damage; 10] = [
    damage("a frame one more", one_more),
    damage("a frame one less", one_less),
    damage("a bit of the frame", bit),
    damage("a frame of 0", of_0),
    damage("a frame that counts the initialising length", count_initialising),
    damage("a total of which 32 bits are right", past_32_bits),
    damage("a last block left out", leave_out_last),
    damage("one block more", add_block),
    damage("no block", leave_out_all),
    damage("no block but the initialising one", leave_initialising),
];

const fn damage(what: &'static str, change: fn(&mut Plan, &mut Random) -> Option<()>) -> Damage {
    Damage { what, broken: Broken::BadTotal, change }
}

fn add(plan: &mut Plan, more: u32) -> Option<()> {
    plan.frame = plan.frame.wrapping_add(more);
    Some(())
}

pub fn one_more(plan: &mut Plan, _: &mut Random) -> Option<()> {
    add(plan, 1)
}

fn one_less(plan: &mut Plan, _: &mut Random) -> Option<()> {
    add(plan, u32::MAX)
}

fn bit(plan: &mut Plan, random: &mut Random) -> Option<()> {
    plan.frame ^= 1 << random.below(32);
    Some(())
}

fn of_0(plan: &mut Plan, _: &mut Random) -> Option<()> {
    let had_length = plan.frame != 0;
    plan.frame = 0;
    had_length.then_some(())
}

fn count_initialising(plan: &mut Plan, _: &mut Random) -> Option<()> {
    let length = initialising_length(plan)?;
    add(plan, length)
}

fn past_32_bits(plan: &mut Plan, random: &mut Random) -> Option<()> {
    let block = block_past_32_bits(plan, random)?;
    plan.blocks.push(block);
    add(plan, block.length)
}

fn leave_out_last(plan: &mut Plan, _: &mut Random) -> Option<()> {
    let last = plan.blocks.pop()?;
    (!last.is_initialising() && last.length != 0).then_some(())
}

fn add_block(plan: &mut Plan, random: &mut Random) -> Option<()> {
    let length = random.pick(&[LEAST_LENGTH, 20_000, u32::MAX]);
    plan.blocks.push(Block { start: plan.frame, length, third: 0 });
    Some(())
}

fn leave_out_all(plan: &mut Plan, _: &mut Random) -> Option<()> {
    plan.blocks.clear();
    Some(())
}

fn leave_initialising(plan: &mut Plan, _: &mut Random) -> Option<()> {
    plan.blocks.truncate(1);
    let first = plan.blocks.first()?;
    (first.is_initialising() && plan.frame != 0).then_some(())
}
