//! A view of the bytes of a sheet as words, sections, records and lists.
//!
//! Nothing here fails: a word beyond the end reads as 0. Rules 1 to 5 see to it that no
//! later rule reads such a word.

use super::languages::LanguageList;
use super::values::Values;

/// Section 0, the header.
pub const HEADER: u8 = 0;
/// Section 1.
pub const PROGRAMME: u8 = 1;
/// Section 2.
pub const CONTENT: u8 = 2;
/// Section 3.
pub const OBJECT: u8 = 3;
/// Section 4.
pub const PACK: u8 = 4;
/// Section 5.
pub const TRACK: u8 = 5;
/// Section 6.
pub const REFERENCE: u8 = 6;
/// Section 7.
pub const VALUE_SET: u8 = 7;

/// Words in a record of each section; the header is a single record.
pub const RECORD_WORDS: [usize; 8] = [16, 8, 5, 16, 3, 2, 1, 7];

/// The pack word of an object without a pack.
pub const NO_PACK: u16 = 65535;

/// Fields of a programme; a list has its first entry there, its count in the next word.
pub mod programme {
    #![allow(missing_docs)]
    pub const LANGUAGE: usize = 0;
    pub const CONTENTS: usize = 1;
    pub const SETS: usize = 3;
    pub const LABELS: usize = 5;
    pub const LOUDNESS: usize = 7;
}

/// Fields of a content.
pub mod content {
    #![allow(missing_docs)]
    pub const LANGUAGE: usize = 0;
    pub const OBJECT: usize = 1;
    pub const LABELS: usize = 2;
    pub const LOUDNESS: usize = 4;
}

/// Fields of an object.
pub mod object {
    #![allow(missing_docs)]
    pub const PACK: usize = 0;
    pub const TRACKS: usize = 1;
    pub const CHILDREN: usize = 3;
    pub const COMPLEMENTS: usize = 5;
    pub const INTERACT: usize = 7;
    pub const GAIN: usize = 8;
    pub const GAIN_MINIMUM: usize = 9;
    pub const GAIN_MAXIMUM: usize = 10;
    pub const OFFSET: usize = 11;
    pub const OFFSET_MINIMUM: usize = 12;
    pub const OFFSET_MAXIMUM: usize = 13;
    pub const SETS: usize = 14;
    /// The words of gain, offset and ranges.
    pub const VALUES: [usize; 6] =
        [GAIN, GAIN_MINIMUM, GAIN_MAXIMUM, OFFSET, OFFSET_MINIMUM, OFFSET_MAXIMUM];
}

/// Fields of a pack.
pub mod pack {
    #![allow(missing_docs)]
    pub const KIND: usize = 0;
    pub const CHANNELS: usize = 1;
    pub const FRONT: usize = 2;
}

/// Fields of a track.
pub mod track {
    #![allow(missing_docs)]
    pub const PACK: usize = 0;
    pub const ORDINAL: usize = 1;
}

/// Fields of a value set.
pub mod value_set {
    #![allow(missing_docs)]
    pub const GAIN: usize = 0;
    pub const OWN: usize = 1;
    pub const GAIN_MINIMUM: usize = 2;
    pub const GAIN_MAXIMUM: usize = 3;
    pub const OFFSET: usize = 4;
    pub const OFFSET_MINIMUM: usize = 5;
    pub const OFFSET_MAXIMUM: usize = 6;
    /// The words of gain, offset and ranges.
    pub const VALUES: [usize; 6] =
        [GAIN, GAIN_MINIMUM, GAIN_MAXIMUM, OFFSET, OFFSET_MINIMUM, OFFSET_MAXIMUM];
}

/// A section and a record; the least place has the lowest section, then the lowest record.
#[derive(Clone, Copy, Debug, PartialEq, Eq, PartialOrd, Ord)]
pub struct Place {
    /// The section, 0 to 7.
    pub section: u8,
    /// The record in it.
    pub record: u16,
}

impl Place {
    /// "A section or the header as subject gives record 0."
    pub fn section(section: u8) -> Place {
        Place { section, record: 0 }
    }
}

/// The words "first and count" of a list or a set span.
#[derive(Clone, Copy, PartialEq, Eq)]
pub struct List {
    /// The first index.
    pub first: usize,
    /// The number of indices.
    pub count: usize,
}

/// A sheet, as its bytes, and the language words that are lent beside it.
#[derive(Clone, Copy)]
pub struct Sheet<'a> {
    bytes: &'a [u8],
    languages: LanguageList<'a>,
}

impl<'a> Sheet<'a> {
    /// The sheet and the list of these bytes, whatever they are.
    pub fn new(bytes: &'a [u8], langs: &'a [u8]) -> Sheet<'a> {
        Sheet { bytes, languages: LanguageList::new(langs) }
    }

    /// The language words lent beside the sheet.
    pub fn languages(&self) -> LanguageList<'a> {
        self.languages
    }

    /// The length in bytes.
    pub fn length(&self) -> usize {
        self.bytes.len()
    }

    /// "A word is 16 bits, high byte first."
    pub fn word(&self, index: usize) -> u16 {
        match self.bytes.get(2 * index..2 * index + 2) {
            Some(pair) => 256 * u16::from(pair[0]) + u16::from(pair[1]),
            None => 0,
        }
    }

    /// "Word 0 is the edition."
    pub fn edition(&self) -> u16 {
        self.word(0)
    }

    /// "Word 1 is the level."
    pub fn level(&self) -> u16 {
        self.word(1)
    }

    /// The number of records that the header gives for a section from 1 to 7.
    pub fn count(&self, section: u8) -> usize {
        usize::from(self.word(2 * usize::from(section)))
    }

    /// The offset that the header gives for a section from 1 to 7.
    pub fn offset(&self, section: u8) -> usize {
        usize::from(self.word(2 * usize::from(section) + 1))
    }

    /// Record `index` of a section from 1 to 7.
    pub fn record(self, section: u8, index: usize) -> Record<'a> {
        Record { sheet: self, section, index }
    }

    /// All records of a section from 1 to 7.
    pub fn records(self, section: u8) -> impl Iterator<Item = Record<'a>> {
        (0..self.count(section)).map(move |index| self.record(section, index))
    }
}

/// A record of a section.
#[derive(Clone, Copy)]
pub struct Record<'a> {
    sheet: Sheet<'a>,
    /// The section, 1 to 7.
    pub section: u8,
    /// The number of the record, counted from 0.
    pub index: usize,
}

impl<'a> Record<'a> {
    /// The sheet that the record is part of.
    pub fn sheet(&self) -> Sheet<'a> {
        self.sheet
    }

    /// The record as a place.
    pub fn place(&self) -> Place {
        Place { section: self.section, record: self.index as u16 }
    }

    /// The word of a field.
    pub fn word(&self, field: usize) -> u16 {
        let size = RECORD_WORDS[usize::from(self.section)];
        let start = self.sheet.offset(self.section) + size * self.index;
        self.sheet.word(start + field)
    }

    /// The word of a field, as an index.
    pub fn index_at(&self, field: usize) -> usize {
        usize::from(self.word(field))
    }

    /// All words of the record.
    pub fn words(self) -> impl Iterator<Item = u16> + 'a {
        (0..RECORD_WORDS[usize::from(self.section)]).map(move |field| self.word(field))
    }

    /// The list or span at a field: "two words, first and count".
    pub fn list(&self, field: usize) -> List {
        List { first: self.index_at(field), count: self.index_at(field + 1) }
    }

    /// The entries of the list at a field, words of section 6.
    pub fn entries(&self, field: usize) -> impl Iterator<Item = usize> + 'a {
        let sheet = self.sheet;
        let list = self.list(field);
        (list.first..list.first + list.count)
            .map(move |entry| usize::from(sheet.record(REFERENCE, entry).word(0)))
    }

    /// The records of a section that the list at a field names.
    pub fn named(&self, field: usize, section: u8) -> impl Iterator<Item = Record<'a>> {
        let sheet = self.sheet;
        self.entries(field).map(move |index| sheet.record(section, index))
    }

    /// The value sets in the span of an object.
    pub fn sets(&self) -> impl Iterator<Item = Record<'a>> {
        let sheet = self.sheet;
        let span = self.list(object::SETS);
        (span.first..span.first + span.count).map(move |index| sheet.record(VALUE_SET, index))
    }

    /// The gain, offset and range words of an object or a value set.
    pub fn values(&self) -> Values {
        let fields = match self.section {
            OBJECT => object::VALUES,
            _ => value_set::VALUES,
        };
        Values::from_words(fields.map(|field| self.word(field)))
    }
}
