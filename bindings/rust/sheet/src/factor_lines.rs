//! What the program `gaintenths` answers: each line of its input is a factor in millionths, and
//! gets a line.
//!
//! ```text
//! 0                                      silence
//! 1 to 11220184                          the tenths of a dB, -600 to 210
//! a larger number of 32 bits             refused 34
//! anything else                          ?
//! ```
//!
//! A number is digits, leading zeros among them, and may stand between spaces and tabs. A carriage
//! return at the end of a line is no part of it, and a line of over 256 bytes has no meaning.

use std::str;

use crate::lines::{number, words};
use crate::script::shown_gain;
use crate::second::factors::gain_of_factor;

/// All answers to an input, each with its line end.
pub fn answers(input: &[u8]) -> String {
    lines(input).map(|line| answer(line) + "\n").collect()
}

/// The lines of an input. What follows the last line end is a line too, unless it is empty.
fn lines(input: &[u8]) -> impl Iterator<Item = &[u8]> {
    let with_ends = input.split_inclusive(|&byte| byte == b'\n');
    with_ends.map(|line| line.strip_suffix(b"\n").unwrap_or(line))
}

/// The answer to a line.
pub fn answer(line: &[u8]) -> String {
    match read(line).map(gain_of_factor) {
        None => "?".to_string(),
        Some(Ok(gain)) => shown_gain(gain),
        Some(Err(refusal)) => format!("refused {}", refusal.number()),
    }
}

/// The factor that a line stands for, if it stands for one.
fn read(line: &[u8]) -> Option<u32> {
    match words(str::from_utf8(line).ok()?)?[..] {
        [factor] => number(factor),
        _ => None,
    }
}
