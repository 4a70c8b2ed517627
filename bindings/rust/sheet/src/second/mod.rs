//! The second checker: the verdict on one sheet and the language words lent beside it, rule by
//! rule in checking order.
//!
//! As plain as possible: no record is decoded ahead, every rule reads the words of the
//! sheet again, and every sentence quoted in these modules, but for `factors`, `figures`, `frames`,
//! `languages` and rule 33, is document 01's.

/// Gains of plain factors.
pub mod factors;
/// The figures that clashed.
pub mod figures;
/// Block times of a live frame.
pub mod frames;
/// Language words.
pub mod languages;
pub(crate) mod limits;
/// The listener above the checker.
pub mod listener;
pub(crate) mod naturals;
/// The rules 1 to 24, and 33 before them.
pub mod rules;
pub(crate) mod terms;
/// Gains, offsets and their ranges.
pub mod values;
/// Words, sections, records and lists of a sheet.
pub mod view;

use std::fmt;

use view::Sheet;

/// "The verdict is acceptance, or a rule together with a place, a section and a record."
#[derive(Clone, Copy, Debug, PartialEq, Eq)]
pub enum Verdict {
    /// No rule is broken.
    Accepted,
    /// The first broken rule, and the least place that breaks it.
    Broken {
        /// The rule, 1 to 24 or 33.
        rule: u8,
        /// The section of the place, 0 for the header.
        section: u8,
        /// The record of the place.
        record: u16,
    },
}

/// The line that `sheetcheck` prints.
impl fmt::Display for Verdict {
    fn fmt(&self, formatter: &mut fmt::Formatter) -> fmt::Result {
        match self {
            Verdict::Accepted => write!(formatter, "accepted"),
            Verdict::Broken { rule, section, record } => {
                write!(formatter, "rule {rule} section {section} record {record}")
            }
        }
    }
}

/// The verdict on a sheet, with the list of language words that is lent beside it.
pub fn check(sheet: &[u8], langs: &[u8]) -> Verdict {
    let sheet = Sheet::new(sheet, langs);
    for (number, rule) in rules::IN_ORDER {
        if let Some(place) = rule(sheet) {
            return Verdict::Broken { rule: number, section: place.section, record: place.record };
        }
    }
    Verdict::Accepted
}

/// "Check gives 0, or 1,000,000 times the rule plus 100,000 times the section plus the
/// record."
pub fn code(verdict: Verdict) -> u32 {
    match verdict {
        Verdict::Accepted => 0,
        Verdict::Broken { rule, section, record } => {
            1_000_000 * u32::from(rule) + 100_000 * u32::from(section) + u32::from(record)
        }
    }
}
