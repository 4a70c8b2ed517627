//! Lists of language words, as bytes, and the words that a sheet holds.

use crate::build::{bytes, language};
use crate::second::view::{content, programme, List, Record, Sheet, CONTENT, PROGRAMME, REFERENCE};

/// The list of ISO 639-2, `examples/langs`.
pub const REAL: &[u8] = include_bytes!("../../../../../../examples/langs");

/// The code of three letters before which no list is needed, from `QAA` on.
pub const QAA: u16 = 17 * 1024 + 32 + 1;
/// The last code that needs no list.
pub const QTZ: u16 = 17 * 1024 + 20 * 32 + 26;
/// Codes and a word of no letters around `QAA` and `QTZ`, which need a list: qa and no letter, qt
/// and no letter, qua, paz, pzz, raa.
pub const AROUND_THE_RANGE: [u16; 6] = [
    QAA - 1,
    QTZ + 1,
    17 * 1024 + 32 * 21 + 1,
    16 * 1024 + 32 + 26,
    16 * 1024 + 32 * 26 + 26,
    18 * 1024 + 32 + 1,
];

/// The words in rising order, each once.
pub fn of(words: impl IntoIterator<Item = u16>) -> Vec<u8> {
    let mut words: Vec<u16> = words.into_iter().collect();
    words.sort_unstable();
    words.dedup();
    bytes(&words)
}

/// The codes in rising order, each once.
pub fn of_codes(codes: &[&str]) -> Vec<u8> {
    of(codes.iter().map(|code| language(code)))
}

/// All codes of three letters.
pub fn every() -> Vec<u8> {
    of(three_letters())
}

/// How many codes of three letters there are.
pub const CODES: usize = 26 * 26 * 26;

/// A code of three letters by its number, counted from 0 in rising order.
pub fn code(number: usize) -> u16 {
    let letter = |number: usize| number as u16 % 26 + 1;
    1024 * letter(number / (26 * 26)) + 32 * letter(number / 26) + letter(number)
}

/// The word of every code of three letters, by rising word.
pub fn three_letters() -> impl Iterator<Item = u16> {
    (0..CODES).map(code)
}

/// All words, the longest list that rises strictly.
pub fn all_words() -> Vec<u8> {
    of(0..=u16::MAX)
}

/// The list with a byte after its last word.
pub fn with_odd_byte(mut list: Vec<u8>, byte: u8) -> Vec<u8> {
    list.push(byte);
    list
}

/// The words of a list, an odd last byte ignored.
pub fn words(list: &[u8]) -> Vec<u16> {
    list.as_chunks().0.iter().map(|&word| u16::from_be_bytes(word)).collect()
}

/// The language words that a sheet holds, in rising order, each once.
pub fn held(sheet: &[u8]) -> Vec<u16> {
    let sheet = Sheet::new(sheet, &[]);
    let mut held = Vec::new();
    for record in sheet.records(PROGRAMME) {
        held.push(record.word(programme::LANGUAGE));
        held.extend(labels(&record, programme::LABELS));
    }
    for record in sheet.records(CONTENT) {
        held.push(record.word(content::LANGUAGE));
        held.extend(labels(&record, content::LABELS));
    }
    held.sort_unstable();
    held.dedup();
    held
}

/// The entries of a label list, as far as they stand in section 6.
pub fn labels<'a>(record: &Record<'a>, field: usize) -> impl Iterator<Item = u16> + 'a {
    let sheet = record.sheet();
    let List { first, count } = record.list(field);
    let end = (first + count).min(sheet.count(REFERENCE));
    (first..end).map(move |entry| sheet.record(REFERENCE, entry).word(0))
}
