//! A random list for a sheet whose verdict is known, or isn't, under a list that holds its
//! languages.

use super::lists::{self, AROUND_THE_RANGE, QAA, QTZ};
use crate::build::bytes;
use crate::generate::random::Random;
use crate::second::Verdict;

/// The verdict on every sheet beside a list that doesn't rise strictly.
pub const NO_RISE: Verdict = Verdict::Broken { rule: 33, section: 0, record: 0 };

/// A list for the sheet, and the verdict that it then has where that is known: three lists in four
/// hold all its languages, so that they change no verdict.
pub fn lend(
    random: &mut Random,
    sheet: &[u8],
    expected: Option<Verdict>,
) -> (Vec<u8>, Option<Verdict>) {
    let held = lists::held(sheet);
    let (list, expected) = match random.below(100) {
        0..=4 => (lists::REAL.to_vec(), None),
        5..=7 => (Vec::new(), None),
        8..=14 => (lacking(random, held), None),
        15..=20 => (not_rising(random, held), Some(NO_RISE)),
        21..=25 => (lists::every(), expected),
        26 => (lists::all_words(), expected),
        _ => (with_others(random, held), expected),
    };
    match random.chance(15) {
        true => (lists::with_odd_byte(list, random.word() as u8), expected),
        false => (list, expected),
    }
}

/// The words and some others.
pub fn with_others(random: &mut Random, mut words: Vec<u16>) -> Vec<u8> {
    words.extend((0..random.below(9)).map(|_| other(random)));
    lists::of(words)
}

fn other(random: &mut Random) -> u16 {
    let around = random.pick(&AROUND_THE_RANGE);
    let any = random.word();
    random.pick(&[any, any, around, QAA, QTZ, 0, u16::MAX])
}

/// Some of the words, and others.
pub fn lacking(random: &mut Random, mut words: Vec<u16>) -> Vec<u8> {
    for _ in 0..random.between(1, 3) {
        if !words.is_empty() {
            words.remove(random.below(words.len()));
        }
    }
    with_others(random, words)
}

/// The words and some others, with two neighbours equal or in the wrong order.
pub fn not_rising(random: &mut Random, words: Vec<u16>) -> Vec<u8> {
    let mut words = lists::words(&with_others(random, words));
    match random.below(4) {
        _ if words.len() < 2 => words = vec![random.pick(&[2, 7]), 2],
        0 => words.swap(0, 1),
        1 => words.rotate_left(1),
        2 => words.insert(0, words[0]),
        _ => {
            let place = random.below(words.len());
            words.insert(place, words[place]);
        }
    }
    bytes(&words)
}
