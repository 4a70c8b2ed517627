//! Bad lengths, bad starts, and numbers that are left over.

use super::{block_past_32_bits, initialising_length, long, place, plain, Damage};
use crate::generate::frames::accepted::{any, mark};
use crate::generate::frames::{Block, Plan};
use crate::generate::random::Random;
use crate::second::frames::{Broken, LEAST_LENGTH};

pub const ALL: [Damage; 19] = [
    damage("a start one more", start_one_more),
    damage("a start one less", start_one_less),
    damage("a bit of a start", start_bit),
    damage("a start of 0", start_of_0),
    damage("a start that counts the block itself", start_counts_itself),
    damage("a start that leaves out the block before", start_leaves_out_one),
    damage("a start that counts the initialising length", start_counts_initialising),
    damage("all starts count the initialising length", all_count_initialising),
    damage("a start of which 32 bits are right", start_past_32_bits),
    damage("a short length", short_length),
    damage("a short length, the others not moved", short_length_unmoved),
    damage("a short last length", short_last_length),
    damage("numbers left over", leave_over),
    damage("two numbers left over, marked as initialising", leave_over_marked),
    damage("an initialising block without its mark", unmark),
    damage("two blocks swapped", swap),
    damage("a block twice", double),
    damage("a block left out", leave_out),
    damage("a bad start, and another total", start_and_total),
];

const fn damage(what: &'static str, change: fn(&mut Plan, &mut Random) -> Option<()>) -> Damage {
    Damage { what, broken: Broken::BadBlock, change }
}

/// A length that is too short.
pub fn short(random: &mut Random) -> u32 {
    match random.below(3) {
        0 => 1,
        1 => LEAST_LENGTH - 1,
        _ => random.between(1, LEAST_LENGTH as usize - 1) as u32,
    }
}

fn start_one_more(plan: &mut Plan, random: &mut Random) -> Option<()> {
    add_to_start(plan, plain(plan, random)?, 1)
}

fn start_one_less(plan: &mut Plan, random: &mut Random) -> Option<()> {
    add_to_start(plan, plain(plan, random)?, u32::MAX)
}

fn add_to_start(plan: &mut Plan, place: usize, more: u32) -> Option<()> {
    let start = &mut plan.blocks[place].start;
    *start = start.wrapping_add(more);
    Some(())
}

fn start_bit(plan: &mut Plan, random: &mut Random) -> Option<()> {
    let place = plain(plan, random)?;
    plan.blocks[place].start ^= 1 << random.below(32);
    Some(())
}

fn start_of_0(plan: &mut Plan, random: &mut Random) -> Option<()> {
    let is_meant = |_, block: Block| !block.is_initialising() && block.start != 0;
    let place = place(plan, random, is_meant)?;
    plan.blocks[place].start = 0;
    Some(())
}

fn start_counts_itself(plan: &mut Plan, random: &mut Random) -> Option<()> {
    let place = long(plan, random)?;
    add_to_start(plan, place, plan.blocks[place].length)
}

fn start_leaves_out_one(plan: &mut Plan, random: &mut Random) -> Option<()> {
    let before = long(plan, random)?;
    plan.blocks.get(before + 1)?;
    add_to_start(plan, before + 1, plan.blocks[before].length.wrapping_neg())
}

fn start_counts_initialising(plan: &mut Plan, random: &mut Random) -> Option<()> {
    add_to_start(plan, plain(plan, random)?, initialising_length(plan)?)
}

fn all_count_initialising(plan: &mut Plan, _: &mut Random) -> Option<()> {
    let length = initialising_length(plan)?;
    plan.blocks.get(1)?;
    for place in 1..plan.blocks.len() {
        add_to_start(plan, place, length)?;
    }
    plan.frame = plan.frame.wrapping_add(length);
    Some(())
}

fn start_past_32_bits(plan: &mut Plan, random: &mut Random) -> Option<()> {
    let block = block_past_32_bits(plan, random)?;
    let start = block.start.wrapping_add(block.length);
    let length = random.pick(&[0, LEAST_LENGTH, u32::MAX]);
    plan.blocks.extend([block, Block { start, length, third: 0 }]);
    plan.frame = start.wrapping_add(length);
    Some(())
}

/// All starts and the total are right then.
fn short_length(plan: &mut Plan, random: &mut Random) -> Option<()> {
    let place = plain(plan, random)?;
    shorten(plan, place, short(random))
}

fn short_last_length(plan: &mut Plan, random: &mut Random) -> Option<()> {
    let place = plan.blocks.len().checked_sub(1)?;
    let is_plain = !plan.blocks[place].is_initialising();
    is_plain.then(|| shorten(plan, place, short(random)))?
}

fn shorten(plan: &mut Plan, place: usize, length: u32) -> Option<()> {
    let more = length.wrapping_sub(plan.blocks[place].length);
    plan.blocks[place].length = length;
    for later in place + 1..plan.blocks.len() {
        add_to_start(plan, later, more)?;
    }
    plan.frame = plan.frame.wrapping_add(more);
    Some(())
}

fn short_length_unmoved(plan: &mut Plan, random: &mut Random) -> Option<()> {
    let place = plain(plan, random)?;
    plan.blocks[place].length = short(random);
    Some(())
}

/// One number or two; the first is often the right start.
pub fn leave_over(plan: &mut Plan, random: &mut Random) -> Option<()> {
    let first = if random.chance(50) { plan.frame } else { any(random) };
    plan.left_over = match random.chance(50) {
        true => vec![first],
        false => vec![first, any(random)],
    };
    Some(())
}

fn leave_over_marked(plan: &mut Plan, random: &mut Random) -> Option<()> {
    plan.left_over = vec![mark(random), mark(random)];
    Some(())
}

fn unmark(plan: &mut Plan, _: &mut Random) -> Option<()> {
    let first = plan.blocks.first_mut()?;
    let was_read = !first.is_initialising() || first.start == 0;
    first.third = 0;
    (!was_read).then_some(())
}

fn swap(plan: &mut Plan, random: &mut Random) -> Option<()> {
    let one = plain(plan, random)?;
    let next = *plan.blocks.get(one + 1)?;
    (plan.blocks[one] != next).then(|| plan.blocks.swap(one, one + 1))
}

fn double(plan: &mut Plan, random: &mut Random) -> Option<()> {
    let place = long(plan, random)?;
    plan.blocks.insert(place, plan.blocks[place]);
    Some(())
}

fn leave_out(plan: &mut Plan, random: &mut Random) -> Option<()> {
    let place = long(plan, random)?;
    plan.blocks.get(place + 1)?;
    plan.blocks.remove(place);
    Some(())
}

fn start_and_total(plan: &mut Plan, random: &mut Random) -> Option<()> {
    start_bit(plan, random)?;
    plan.frame ^= 1 << random.below(32);
    Some(())
}
