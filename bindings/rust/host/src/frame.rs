//! What `frame_check` has to say about the blocks of a frame. The second implementation has such a
//! type too; a player needs nothing of it, so it isn't used here.

use std::{error, fmt};

/// Why blocks don't conform to a frame; these are tried in this order.
#[derive(Clone, Copy, Debug, PartialEq, Eq)]
pub enum FrameError {
    /// 35: an initialising block isn't first.
    InitialisingNotFirst,
    /// 36: a length or a start is bad, or the last block isn't finished.
    BadBlock,
    /// 37: there is no block at all, or the lengths don't add up to the frame.
    BadTotal,
}

impl FrameError {
    /// The error's number, 35, 36 or 37.
    pub fn number(self) -> u8 {
        match self {
            FrameError::InitialisingNotFirst => 35,
            FrameError::BadBlock => 36,
            FrameError::BadTotal => 37,
        }
    }
}

/// What is wrong, in words.
impl fmt::Display for FrameError {
    fn fmt(&self, formatter: &mut fmt::Formatter) -> fmt::Result {
        formatter.write_str(match self {
            FrameError::InitialisingNotFirst => "an initialising block isn't first",
            FrameError::BadBlock => "a length or a start is bad, or the last block isn't finished",
            FrameError::BadTotal => "there is no block, or the lengths don't add up to the frame",
        })
    }
}

impl error::Error for FrameError {}

/// What a number that `frame_check` gives stands for, if it stands for anything.
#[inline]
pub(crate) fn of_number(number: u32) -> Option<Result<(), FrameError>> {
    match number {
        0 => Some(Ok(())),
        35 => Some(Err(FrameError::InitialisingNotFirst)),
        36 => Some(Err(FrameError::BadBlock)),
        37 => Some(Err(FrameError::BadTotal)),
        _ => None,
    }
}

#[cfg(test)]
mod tests {
    use super::{of_number, FrameError};

    #[test]
    fn acceptance_and_the_errors_are_read() {
        assert_eq!(of_number(0), Some(Ok(())));
        for error in [FrameError::InitialisingNotFirst, FrameError::BadBlock, FrameError::BadTotal]
        {
            assert_eq!(of_number(error.number().into()), Some(Err(error)));
        }
    }

    #[test]
    fn other_numbers_are_none() {
        let near = (1..35).chain(38..=300);
        let others = [35_000_000, 36_000_000, 37_000_000, (1 << 16) + 35, u32::MAX - 34, u32::MAX];
        for number in near.chain(others) {
            assert_eq!(of_number(number), None, "{number}");
        }
    }
}
