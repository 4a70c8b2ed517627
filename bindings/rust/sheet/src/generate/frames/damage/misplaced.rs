//! Initialising blocks that aren't first.

use super::{blocks, place, plain, totals, Damage};
use crate::generate::frames::accepted::{initialising, mark};
use crate::generate::frames::Plan;
use crate::generate::random::Random;
use crate::second::frames::Broken;

pub const ALL: [Damage; 8] = [
    damage("a later block is marked as initialising", mark_later),
    damage("an initialising block is put in", put_in),
    damage("an initialising block is last", put_last),
    damage("a second initialising block", put_in_second),
    damage("an initialising block behind a bad length", put_behind_bad_length),
    damage("an initialising block behind a bad start", put_behind_bad_start),
    damage("an initialising block, and numbers left over", put_in_and_leave_over),
    damage("an initialising block, and another total", put_in_and_change_total),
];

const fn damage(what: &'static str, change: fn(&mut Plan, &mut Random) -> Option<()>) -> Damage {
    Damage { what, broken: Broken::InitialisingNotFirst, change }
}

fn mark_later(plan: &mut Plan, random: &mut Random) -> Option<()> {
    let place = place(plan, random, |place, _| place > 0)?;
    plan.blocks[place].third = mark(random);
    Some(())
}

fn put_in(plan: &mut Plan, random: &mut Random) -> Option<()> {
    put_behind(0, plan, random)
}

fn put_behind(place: usize, plan: &mut Plan, random: &mut Random) -> Option<()> {
    let place = random.between(place + 1, plan.blocks.len().max(place + 1));
    plan.blocks.get(place - 1)?;
    plan.blocks.insert(place, initialising(random));
    Some(())
}

fn put_last(plan: &mut Plan, random: &mut Random) -> Option<()> {
    plan.blocks.first()?;
    plan.blocks.push(initialising(random));
    Some(())
}

fn put_in_second(plan: &mut Plan, random: &mut Random) -> Option<()> {
    plan.blocks.first().filter(|first| first.is_initialising())?;
    plan.blocks.insert(1, initialising(random));
    Some(())
}

fn put_behind_bad_length(plan: &mut Plan, random: &mut Random) -> Option<()> {
    let place = plain(plan, random)?;
    plan.blocks[place].length = blocks::short(random);
    put_behind(place, plan, random)
}

fn put_behind_bad_start(plan: &mut Plan, random: &mut Random) -> Option<()> {
    let place = plain(plan, random)?;
    plan.blocks[place].start ^= 1;
    put_behind(place, plan, random)
}

fn put_in_and_leave_over(plan: &mut Plan, random: &mut Random) -> Option<()> {
    put_in(plan, random)?;
    blocks::leave_over(plan, random)
}

fn put_in_and_change_total(plan: &mut Plan, random: &mut Random) -> Option<()> {
    put_in(plan, random)?;
    totals::one_more(plan, random)
}
