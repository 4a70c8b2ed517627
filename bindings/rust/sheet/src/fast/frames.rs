//! Block times of a live frame, in one pass.

use crate::second::frames::{Broken, LEAST_LENGTH};

/// Whether the blocks that these numbers make conform to a frame of this length.
///
/// As long as no block is bad, each start is the sum before it, so that the sum passes 32 bits with
/// the last block at most: 64 bits are enough.
pub fn check(frame: u32, numbers: &[u32]) -> Result<(), Broken> {
    let (blocks, left_over) = numbers.as_chunks();
    let [first, later @ ..] = blocks else {
        return Err(if left_over.is_empty() { Broken::BadTotal } else { Broken::BadBlock });
    };
    let (mut sum, mut is_bad) = (0, !left_over.is_empty());
    let [start, length, third] = *first;
    if third == 0 {
        sum = u64::from(length);
        is_bad |= start != 0 || is_short(length);
    }
    for &[start, length, third] in later {
        if third != 0 {
            return Err(Broken::InitialisingNotFirst);
        }
        is_bad |= u64::from(start) != sum || is_short(length);
        sum = sum.wrapping_add(length.into());
    }
    match is_bad {
        true => Err(Broken::BadBlock),
        false if sum != u64::from(frame) => Err(Broken::BadTotal),
        false => Ok(()),
    }
}

/// Whether a length is below the least, but not 0.
fn is_short(length: u32) -> bool {
    length.wrapping_sub(1) < LEAST_LENGTH - 1
}
