//! The lines that are kept as the input of `gaintenths`.

use super::factors::{around_powers_of_two, long_lines, odd_lines, with_ends, EXAMPLES};
use crate::factor_lines::answers;
use crate::second::factors::table;

/// So many entries at each end of the table, and about a factor of 1, are stored one by one.
const CLOSE: usize = 8;
/// Of the other entries one in so many is stored.
const STEP: usize = 10;
/// The place of the entry of 0 tenths.
const OF_0_TENTHS: usize = 600;

/// The input: document 02's examples, entries of the table with their neighbours, numbers about the
/// powers of two, odd lines and long ones. The last line has no end.
pub fn input() -> Vec<u8> {
    let numbers = [EXAMPLES.to_vec(), around_some_entries(), around_powers_of_two()].concat();
    let numbers = numbers.into_iter().map(|factor| factor.to_string().into_bytes());
    let mut input = with_ends(numbers.chain(odd_lines()).chain(long_lines()), "\n");
    input.extend(b"1000000\r");
    input
}

/// What `gaintenths` has to print.
pub fn expected() -> String {
    answers(&input())
}

fn around_some_entries() -> Vec<u32> {
    let entries = table().iter().enumerate().filter(|(place, _)| is_stored(*place));
    entries.flat_map(|(_, &entry)| [entry - 1, entry, entry + 1]).collect()
}

fn is_stored(place: usize) -> bool {
    let of_ends = place < CLOSE || place >= table().len() - CLOSE;
    of_ends || place.abs_diff(OF_0_TENTHS) < CLOSE || place.is_multiple_of(STEP)
}
