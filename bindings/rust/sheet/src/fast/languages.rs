//! The language words lent beside a sheet: rule 33, and which words of the sheet are good.
//!
//! A word is looked up in the list, which is sorted; where a sheet has many words for a list of
//! its length, a table is filled from the list once.

use super::at_section;
use crate::second::languages::{is_from_qaa_to_qtz, is_three_letters};
use crate::second::view::HEADER;
use crate::second::Verdict;

/// Words that are compared with their neighbours in one go, so that a fall ends the pass.
const STRETCH: usize = 1024;
/// No more words rise strictly.
const MOST_WORDS: usize = 65_536;

/// More than the word of every code of three letters.
pub const LANGUAGES: usize = 27 * 1024;
/// A bit for each word below `LANGUAGES`, 64 in a group.
type Bits = [u64; LANGUAGES / 64];

/// The words of three letters, and those that are good without a list.
static WITHOUT_LIST: [(u64, u64); LANGUAGES / 64] = without_list();

/// A list that rises strictly.
#[derive(Clone, Copy)]
pub struct Languages<'a> {
    words: &'a [[u8; 2]],
}

impl<'a> Languages<'a> {
    /// The list of these bytes, if it keeps rule 33.
    pub fn split(bytes: &'a [u8]) -> Result<Languages<'a>, Verdict> {
        let words = bytes.as_chunks().0;
        at_section(33, HEADER, words.len() > MOST_WORDS || !rises(words))?;
        Ok(Languages { words })
    }

    /// Whether so many words are better looked up in a table than in the list.
    pub fn is_long_for(&self, lookups: usize) -> bool {
        let halvings = usize::BITS - self.words.len().leading_zeros();
        lookups * halvings as usize > 100 + self.words.len() / 2
    }

    /// Whether the word is good.
    pub fn makes_good(&self, word: u16) -> bool {
        let is_listed = || self.words.binary_search_by_key(&word, word_of).is_ok();
        is_three_letters(word) && (is_from_qaa_to_qtz(word) || is_listed())
    }

    /// The table of the good words.
    pub fn table(&self) -> Table {
        let mut good: Bits = [0; LANGUAGES / 64];
        for word in self.words.iter().map(word_of) {
            // above it the list has no letters any more
            let Some(group) = good.get_mut(usize::from(word >> 6)) else { break };
            *group |= 1 << (word & 63);
        }
        for (group, (letters, unlisted)) in good.iter_mut().zip(&WITHOUT_LIST) {
            *group = *group & letters | unlisted;
        }
        Table { good }
    }
}

/// For each word whether it is good.
pub struct Table {
    good: Bits,
}

impl Table {
    /// Whether the word is good.
    #[inline(always)]
    pub fn makes_good(&self, word: u16) -> bool {
        match self.good.get(usize::from(word >> 6)) {
            Some(group) => group >> (word & 63) & 1 == 1,
            None => false,
        }
    }
}

#[inline(always)]
fn word_of(bytes: &[u8; 2]) -> u16 {
    u16::from_be_bytes(*bytes)
}

/// Whether each word is below the next; a stretch is compared without a branch.
fn rises(words: &[[u8; 2]]) -> bool {
    let next = words.get(1..).unwrap_or_default();
    words.chunks(STRETCH).zip(next.chunks(STRETCH)).all(|(words, next)| {
        let falls = |(word, next)| u16::from(word_of(word) >= word_of(next));
        words.iter().zip(next).map(falls).fold(0, |any, falls| any | falls) == 0
    })
}

const fn without_list() -> [(u64, u64); LANGUAGES / 64] {
    let mut bits = [(0, 0); LANGUAGES / 64];
    let mut word = 0;
    while word < LANGUAGES {
        let (letters, unlisted) = bits[word / 64];
        let letters = letters | (is_three_letters(word as u16) as u64) << (word % 64);
        let unlisted = unlisted | (is_from_qaa_to_qtz(word as u16) as u64) << (word % 64);
        bits[word / 64] = (letters, unlisted);
        word += 1;
    }
    bits
}
