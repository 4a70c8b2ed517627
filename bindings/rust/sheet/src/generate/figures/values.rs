//! Random legal values: few bounds, and values at them, next to them and far from them.

use crate::build::{Values, ABSENT, NO_RANGE, SILENCE};
use crate::generate::random::Random;

const GAINS: [i16; 14] = [SILENCE, SILENCE, -600, -599, -61, -60, -59, -1, 0, 1, 59, 60, 61, 210];
const GAIN_MINIMUMS: [i16; 6] = [SILENCE, -600, -600, -60, -60, 0];
const GAIN_MAXIMUMS: [i16; 5] = [0, 1, 60, 60, 210];
const OFFSETS: [i16; 12] = [-300, -299, -101, -100, -99, -1, 0, 1, 100, 101, 299, 300];
const OFFSET_MINIMUMS: [i16; 5] = [-300, -299, -100, -100, 0];
const OFFSET_MAXIMUMS: [i16; 5] = [0, 100, 100, 299, 300];

/// Which words may be present.
#[derive(Clone, Copy)]
pub struct Allowed {
    /// Range words.
    pub ranges: bool,
    /// The words of offsets.
    pub offsets: bool,
}

/// Values that may lie outside their ranges.
pub fn any_values(random: &mut Random, allowed: Allowed) -> Values {
    let Allowed { ranges, offsets } = allowed;
    Values {
        gain: if random.chance(75) { any_gain(random) } else { ABSENT },
        gain_range: if ranges { any_gain_range(random) } else { NO_RANGE },
        offset: if offsets && random.chance(75) { any_offset(random) } else { ABSENT },
        offset_range: if ranges && offsets { any_offset_range(random) } else { NO_RANGE },
    }
}

/// A gain that is present.
pub fn any_gain(random: &mut Random) -> i16 {
    let any = random.value(-600, 210);
    [any, random.pick(&GAINS)][random.below(2)]
}

/// An offset that is present.
pub fn any_offset(random: &mut Random) -> i16 {
    let any = random.value(-300, 300);
    [any, random.pick(&OFFSETS)][random.below(2)]
}

/// A gain range in most cases.
pub fn any_gain_range(random: &mut Random) -> (i16, i16) {
    let any = (random.value(-600, 0), random.value(0, 210));
    let one_of_few = (random.pick(&GAIN_MINIMUMS), random.pick(&GAIN_MAXIMUMS));
    random.pick(&[any, one_of_few, one_of_few, one_of_few, NO_RANGE])
}

/// An offset range in most cases.
pub fn any_offset_range(random: &mut Random) -> (i16, i16) {
    let any = (random.value(-300, 0), random.value(0, 300));
    let one_of_few = (random.pick(&OFFSET_MINIMUMS), random.pick(&OFFSET_MAXIMUMS));
    random.pick(&[any, one_of_few, one_of_few, one_of_few, NO_RANGE])
}
