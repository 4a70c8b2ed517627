//! Plans whose counted tracks may be above the limit of their level: rule 24.

use crate::build::Plan;
use crate::generate::accepted;
use crate::generate::random::Random;

/// A plan that is accepted but for its counted tracks, which are few too many or many.
pub fn plan(random: &mut Random) -> Plan {
    let level = random.pick(&[1, 2]);
    let many = random.between(1, 30);
    let more = random.pick(&[1, 1, 2, many]);
    accepted::plan_of_many_tracks(random, level, more)
}
