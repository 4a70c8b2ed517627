//! The gain of a plain factor. The sentences quoted here are those of document 02, L3.

use std::ops::RangeInclusive;
use std::sync::LazyLock;

use super::naturals::Natural;
use super::values::Gain;

/// "For each tenth d from -600 to 210."
pub const TENTHS: RangeInclusive<i16> = -600..=210;
/// "34, the factor is above 11,220,184."
pub const LARGEST: u32 = 11_220_184;
/// A factor that breaks the rule for every tenth.
const FAR_ABOVE: u32 = 1 << 24;

/// The refusal of a factor that is above the largest.
#[derive(Clone, Copy, Debug, PartialEq, Eq)]
pub struct TooLarge;

impl TooLarge {
    /// The refusal's number.
    pub fn number(self) -> u8 {
        34
    }
}

/// "A converter gives the least tenth of a dB that is not below it: 0 is silence."
pub fn gain_of_factor(millionths: u32) -> Result<Gain, TooLarge> {
    match millionths {
        0 => Ok(Gain::Silent),
        1..=LARGEST => Ok(Gain::Tenths(least_tenth(millionths))),
        _ => Err(TooLarge),
    }
}

/// The least tenth whose entry is not below the factor.
fn least_tenth(millionths: u32) -> i16 {
    let place = table().iter().position(|&entry| entry >= millionths);
    TENTHS.start() + place.expect("the last entry is the largest factor") as i16
}

/// "A fixed table of 811 entries."
pub fn table() -> &'static [u32] {
    static TABLE: LazyLock<Vec<u32>> = LazyLock::new(|| TENTHS.map(entry).collect());
    &TABLE
}

/// "The largest n" that keeps the rule. Those that keep it come before all others.
fn entry(tenth: i16) -> u32 {
    let (mut keeps, mut breaks) = (0, FAR_ABOVE);
    while breaks - keeps > 1 {
        let middle = keeps + (breaks - keeps) / 2;
        match keeps_rule(middle, tenth) {
            true => keeps = middle,
            false => breaks = middle,
        }
    }
    keeps
}

/// Whether "n to the power 200, times 10 to the power 600, is at most 10 to the power (1800 + d)".
pub fn keeps_rule(n: u32, d: i16) -> bool {
    let power = |base: u32, exponent| Natural::from(base).to_the_power(exponent);
    let exponent = u32::try_from(1800 + d).expect("no tenth is below -600");
    power(n, 200).times(&power(10, 600)) <= power(10, exponent)
}
