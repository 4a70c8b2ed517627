//! Gains, offsets and ranges: which words are legal, and what they mean.

use std::ops::RangeInclusive;

/// "In gain, offset and range words 32767 means absent."
pub const ABSENT: u16 = 32767;
/// The gain word of silence, -32768 in two's complement.
pub const SILENCE: u16 = 32768;

const GAINS: RangeInclusive<i16> = -600..=210;
const GAIN_MINIMUMS: RangeInclusive<i16> = -600..=0;
const GAIN_MAXIMUMS: RangeInclusive<i16> = 0..=210;
const OFFSETS: RangeInclusive<i16> = -300..=300;
const OFFSET_MINIMUMS: RangeInclusive<i16> = -300..=0;
const OFFSET_MAXIMUMS: RangeInclusive<i16> = 0..=300;

/// "A gain is either silence (-32768) or a number of tenths of a dB from -600 to 210, and
/// silence is below every number." The order of the cases makes it so.
#[derive(Clone, Copy, Debug, PartialEq, Eq, PartialOrd, Ord)]
pub enum Gain {
    /// Silence.
    Silent,
    /// Tenths of a dB.
    Tenths(i16),
}

impl Gain {
    /// The gain of a word that isn't absent.
    pub fn from_word(word: u16) -> Gain {
        match word {
            SILENCE => Gain::Silent,
            _ => Gain::Tenths(signed(word)),
        }
    }

    /// Whether the gain is silence or -600 to 210.
    pub fn is_legal(self) -> bool {
        match self {
            Gain::Silent => true,
            Gain::Tenths(tenths) => GAINS.contains(&tenths),
        }
    }
}

/// Whether the offset is -300 to 300.
pub fn is_legal_offset(offset: i16) -> bool {
    OFFSETS.contains(&offset)
}

/// A minimum and a maximum that are both there.
#[derive(Clone, Copy, Debug, PartialEq, Eq)]
pub struct Range<T> {
    /// The least value in the range.
    pub minimum: T,
    /// The greatest value in the range.
    pub maximum: T,
}

impl<T: PartialOrd> Range<T> {
    /// Whether the value lies in the range.
    pub fn holds(&self, value: &T) -> bool {
        self.minimum <= *value && *value <= self.maximum
    }
}

/// Whether the value leaves the range; an absent range has no bounds.
pub fn leaves<T: PartialOrd>(value: T, range: &Option<Range<T>>) -> bool {
    range.as_ref().is_some_and(|range| !range.holds(&value))
}

/// The six words for gain, offset and ranges that objects and value sets have alike.
#[derive(Clone, Copy, Debug, PartialEq, Eq)]
pub struct Values {
    gain: u16,
    gain_minimum: u16,
    gain_maximum: u16,
    offset: u16,
    offset_minimum: u16,
    offset_maximum: u16,
}

impl Values {
    /// The words in the order of the sheet, without a value set's word "own".
    pub fn from_words(words: [u16; 6]) -> Values {
        let [gain, gain_minimum, gain_maximum, offset, offset_minimum, offset_maximum] = words;
        Values { gain, gain_minimum, gain_maximum, offset, offset_minimum, offset_maximum }
    }

    /// The gain, where present.
    pub fn gain(&self) -> Option<Gain> {
        present(self.gain).map(Gain::from_word)
    }

    /// The offset, where present.
    pub fn offset(&self) -> Option<i16> {
        present(self.offset).map(signed)
    }

    /// The gain range, where both words are present.
    pub fn gain_range(&self) -> Option<Range<Gain>> {
        Some(Range {
            minimum: present(self.gain_minimum).map(Gain::from_word)?,
            maximum: present(self.gain_maximum).map(Gain::from_word)?,
        })
    }

    /// The offset range, where both words are present.
    pub fn offset_range(&self) -> Option<Range<i16>> {
        Some(Range {
            minimum: present(self.offset_minimum).map(signed)?,
            maximum: present(self.offset_maximum).map(signed)?,
        })
    }

    /// Whether any of the six words is present.
    pub fn has_any(&self) -> bool {
        self.gain != ABSENT || self.has_range() || self.offset != ABSENT
    }

    /// Whether any of the four range words is present.
    pub fn has_range(&self) -> bool {
        self.gain_minimum != ABSENT || self.gain_maximum != ABSENT || self.has_offset_range()
    }

    /// Whether an offset or a word of an offset range is present.
    pub fn has_offset_or_offset_range(&self) -> bool {
        self.offset != ABSENT || self.has_offset_range()
    }

    fn has_offset_range(&self) -> bool {
        self.offset_minimum != ABSENT || self.offset_maximum != ABSENT
    }

    /// Whether each word is absent or among its values. A maximum is never silence.
    pub fn are_legal(&self) -> bool {
        let number = |word, values: RangeInclusive<i16>| {
            present(word).is_none_or(|word| values.contains(&signed(word)))
        };
        let gain = |word, values| word == SILENCE || number(word, values);
        gain(self.gain, GAINS)
            && gain(self.gain_minimum, GAIN_MINIMUMS)
            && number(self.gain_maximum, GAIN_MAXIMUMS)
            && number(self.offset, OFFSETS)
            && number(self.offset_minimum, OFFSET_MINIMUMS)
            && number(self.offset_maximum, OFFSET_MAXIMUMS)
    }

    /// Whether a minimum is there without its maximum, or a maximum without its minimum.
    pub fn have_half_a_pair(&self) -> bool {
        (self.gain_minimum == ABSENT) != (self.gain_maximum == ABSENT)
            || (self.offset_minimum == ABSENT) != (self.offset_maximum == ABSENT)
    }
}

fn present(word: u16) -> Option<u16> {
    (word != ABSENT).then_some(word)
}

/// "Signed words are two's complement."
pub(super) fn signed(word: u16) -> i16 {
    word as i16
}
