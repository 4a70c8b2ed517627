//! What `gain_of_factor` has to say about a factor. The second implementation has such a type too; a
//! player needs nothing of it, so it isn't used here.

use std::{error, fmt};

/// The number of silence.
const SILENCE: i32 = -32768;
/// The least number of tenths.
const LEAST: i32 = -600;
/// The largest.
const LARGEST: i32 = 210;
/// The refusal: 1,000,000 times its number in document 02.
const REFUSED: i32 = 34_000_000;

/// A gain; silence is below every number.
#[derive(Clone, Copy, Debug, PartialEq, Eq, PartialOrd, Ord)]
pub enum Gain {
    /// Silence.
    Silent,
    /// Tenths of a dB, -600 to 210.
    Tenths(i16),
}

/// The refusal of a factor, 34: it is above 11,220,184 millionths, which are 21 dB.
#[derive(Clone, Copy, Debug, PartialEq, Eq)]
pub struct FactorTooLarge;

impl FactorTooLarge {
    /// The refusal's number, 34.
    pub fn number(self) -> u8 {
        34
    }
}

/// What is wrong, in words.
impl fmt::Display for FactorTooLarge {
    fn fmt(&self, formatter: &mut fmt::Formatter) -> fmt::Result {
        formatter.write_str("the factor is above 11,220,184 millionths")
    }
}

impl error::Error for FactorTooLarge {}

/// What a number that `gain_of_factor` gives stands for, if it stands for anything.
#[inline]
pub(crate) fn of_number(number: i32) -> Option<Result<Gain, FactorTooLarge>> {
    match number {
        LEAST..=LARGEST => Some(Ok(Gain::Tenths(number as i16))),
        SILENCE => Some(Ok(Gain::Silent)),
        REFUSED => Some(Err(FactorTooLarge)),
        _ => None,
    }
}

#[cfg(test)]
mod tests {
    use super::{of_number, FactorTooLarge, Gain};

    #[test]
    fn gains_are_read() {
        for tenths in -600..=210 {
            assert_eq!(of_number(tenths.into()), Some(Ok(Gain::Tenths(tenths))));
        }
        assert_eq!(of_number(-32768), Some(Ok(Gain::Silent)));
        assert!(Gain::Silent < Gain::Tenths(-600));
    }

    #[test]
    fn the_refusal_is_read() {
        assert_eq!(of_number(34_000_000), Some(Err(FactorTooLarge)));
    }

    #[test]
    fn other_numbers_are_none() {
        let outside = [-601, 211, -32767, -32769, 32767, 32768, 65_536, i32::MIN, i32::MAX];
        let refusals = [33_000_000, 35_000_000, -34_000_000, 34_000_001];
        for number in outside.into_iter().chain(refusals) {
            assert_eq!(of_number(number), None, "{number}");
        }
    }
}
