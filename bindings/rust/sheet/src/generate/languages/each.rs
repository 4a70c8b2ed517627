//! Sheets for each word, and for each length of a list and each place in it.

use super::lend::NO_RISE;
use super::lists::{self, code, CODES, REAL};
use super::standings::local_a;
use crate::build::{bytes, Plan};
use crate::generate::Generated;
use crate::second::Verdict;

/// Lists are of each length below it.
const LENGTHS: usize = 70;
/// The words of a larger sheet: 4,200 bytes.
const LARGER: usize = 2100;
/// Labels beside a word, so that the sheet has many language words.
const OTHER_LABELS: usize = 90;

/// All of them.
pub fn sheets() -> impl Iterator<Item = Generated> {
    let falls = falls().chain(falls_in_all_words());
    falls.chain(words_by_length()).chain(words_by_power()).chain(each_word())
}

fn generated(name: String, sheet: Vec<u8>, langs: Vec<u8>, expected: Option<Verdict>) -> Generated {
    Generated { name, sheet, langs, expected }
}

/// A list of each length, with two neighbours equal or exchanged at each place.
fn falls() -> impl Iterator<Item = Generated> {
    let a = Plan::sheet_a().bytes();
    let places = (2..LENGTHS).flat_map(|length| (1..length).map(move |place| (length, place)));
    places.flat_map(move |(length, place)| {
        let rising: Vec<u16> = (0..length).map(|number| 5575 + 131 * number as u16).collect();
        let (mut equal, mut exchanged) = (rising.clone(), rising);
        equal[place] = equal[place - 1];
        exchanged.swap(place - 1, place);
        [("equal", equal), ("exchanged", exchanged)].map(|(how, list)| {
            let name = format!("words {place} and the one before {how}, of {length}");
            generated(name, a.clone(), bytes(&list), Some(NO_RISE))
        })
    })
}

/// The list of all words with a word that isn't above the one before, near each power of two.
fn falls_in_all_words() -> impl Iterator<Item = Generated> {
    let near = |power: u32| [-1, 0, 1].map(|by| (1_i32 << power) + by);
    let places = (0..=16).flat_map(near).filter(|place| (1..65_536).contains(place));
    places.flat_map(|place| {
        let place = place as usize;
        let all: Vec<u16> = (0..=u16::MAX).collect();
        let (mut equal, mut lower) = (all.clone(), all);
        equal[place] -= 1;
        lower[place] = 0;
        let lists = [equal, lower];
        lists.map(|list| {
            let name = format!("all words, word {place} no higher than the one before");
            generated(name, local_a().bytes(), bytes(&list), Some(NO_RISE))
        })
    })
}

/// A list of each length, and its words and those beside them as languages of a content.
fn words_by_length() -> impl Iterator<Item = Generated> {
    (0..LENGTHS).flat_map(|length| {
        let list: Vec<u16> = (0..length).map(|number| code(1 + 240 * number)).collect();
        let of_list = list.clone().into_iter().flat_map(|word| [word - 1, word, word + 1]);
        of_list.map(move |word| {
            let mut plan = local_a();
            plan.contents[0].language = word;
            let name = format!("word {word} beside a list of {length}");
            generated(name, plan.bytes(), bytes(&list), None)
        })
    })
}

/// Lists with lengths near each power of two, and of each the words that stand near a power of two
/// and at the end, with those beside them, as the language of a content of a small sheet and of a
/// larger one.
fn words_by_power() -> impl Iterator<Item = Generated> {
    near_powers().into_iter().flat_map(|length| {
        let list = list_of(length);
        let langs = bytes(&list);
        let mut indices = near_powers();
        indices.extend([0, length - 1]);
        let of_list = indices.into_iter().filter_map(move |index| list.get(index).copied());
        let beside = |word: u16| [word.saturating_sub(1), word, word.saturating_add(1)];
        of_list
            .flat_map(beside)
            .flat_map(move |word| [0, LARGER].map(|words| with_language(word, words, &langs)))
    })
}

/// The powers of two and the numbers beside them, from 1 to 65,536, which is the most words that a
/// list has.
fn near_powers() -> Vec<usize> {
    let near = |power: u32| [-1, 0, 1].map(|by| (1_i32 << power) + by);
    let numbers = (0..=16).flat_map(near).filter(|number| (1..=65_536).contains(number));
    let mut numbers: Vec<usize> = numbers.map(|number| number as usize).collect();
    numbers.sort_unstable();
    numbers.dedup();
    numbers
}

/// Codes from all over in a rising list of that length; all first words where it is longer than
/// there are codes.
fn list_of(length: usize) -> Vec<u16> {
    let spread = |number: usize| code(number * CODES / length);
    match length > CODES {
        true => (0..length).map(|number| number as u16).collect(),
        false => (0..length).map(spread).collect(),
    }
}

/// A sheet of so many words or its least number, of which a content has that language.
fn with_language(word: u16, words: usize, langs: &[u8]) -> Generated {
    let mut plan = local_a();
    plan.level = 0;
    plan.contents[0].language = word;
    let sheet = plan.filled_to(words).bytes();
    generated(format!("word {word} in {} bytes", sheet.len()), sheet, langs.to_vec(), None)
}

/// Each word as the language of a content, of a small sheet and of a larger one, beside the list of
/// ISO 639-2 and beside none, and as the last of many labels.
pub fn each_word() -> impl Iterator<Item = Generated> {
    let lent: [(&[u8], usize); 4] = [(REAL, 0), (REAL, LARGER), (&[], 0), (&[], LARGER)];
    let alone = lent.into_iter().flat_map(|(langs, words)| {
        (0..=u16::MAX).map(move |word| with_language(word, words, langs))
    });
    let beside = (0..=u16::MAX).map(|word| {
        let (name, plan) = (format!("word {word} beside labels"), beside_labels(word));
        generated(name, plan.bytes(), REAL.to_vec(), None)
    });
    alone.chain(beside)
}

/// Labels of a programme at level 0, of which the word is the last.
fn beside_labels(word: u16) -> Plan {
    let mut plan = local_a();
    plan.level = 0;
    let others = lists::words(REAL).into_iter().filter(|&label| label != word);
    plan.programmes[0].labels = others.take(OTHER_LABELS).chain([word]).collect();
    plan
}
