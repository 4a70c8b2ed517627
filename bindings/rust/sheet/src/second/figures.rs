//! The figures that clashed: what `sheetfigures` tells of a sheet that rule 18, 20 or 24
//! refuses. The sentences quoted in these modules are those of document 02, L1.

/// Rule 18: a value and the bound that it passes.
pub mod bounds;
/// Rule 20: a word or kind of a leader and of a member.
pub mod members;
/// Rule 24: the shares of groups and lone objects.
pub mod shares;

use std::fmt;

use super::terms::owners;
use super::values::signed;
use super::view::{Record, Sheet, OBJECT, VALUE_SET};
use super::{check, Verdict};
use bounds::Clash;
use members::Difference;

/// A number, and the record under which it is told.
#[derive(Clone, Copy, Debug, PartialEq, Eq)]
pub struct Figure {
    /// The section, 3 or 7.
    pub section: u8,
    /// The record in it.
    pub record: u16,
    /// The word, kind or share.
    pub value: i32,
}

impl Figure {
    /// "Words taken as signed."
    fn of_word(record: &Record, word: u16) -> Figure {
        Figure::of_number(record, i32::from(signed(word)))
    }

    fn of_number(record: &Record, value: i32) -> Figure {
        let place = record.place();
        Figure { section: place.section, record: place.record, value }
    }
}

/// "A line reads `section 3 record 0 figure -600`."
impl fmt::Display for Figure {
    fn fmt(&self, formatter: &mut fmt::Formatter) -> fmt::Result {
        let Figure { section, record, value } = self;
        write!(formatter, "section {section} record {record} figure {value}")
    }
}

/// All that clashes at the place of a verdict, in the order of telling.
pub enum Clashes {
    /// Rule 18, at an object or a set.
    OutOfBounds(Vec<Clash>),
    /// Rule 20, at a leader.
    Unequal(Vec<Difference>),
    /// Rule 24, with the shares.
    TooManyTracks(Vec<Figure>),
    /// Acceptance, and all other rules.
    NotTold,
}

impl Clashes {
    /// All that clashes where the second checker gives this verdict on the sheet.
    pub fn at(sheet: Sheet, verdict: Verdict) -> Clashes {
        match verdict {
            Verdict::Broken { rule: 18, section, record } => {
                Clashes::OutOfBounds(out_of_bounds(&sheet.record(section, record.into())))
            }
            Verdict::Broken { rule: 20, record, .. } => {
                Clashes::Unequal(members::differences(&sheet.record(OBJECT, record.into())))
            }
            Verdict::Broken { rule: 24, .. } => Clashes::TooManyTracks(shares::shares(sheet)),
            _ => Clashes::NotTold,
        }
    }

    /// "Of several clashes in that record the first is told."
    pub fn figures(&self) -> Vec<Figure> {
        match self {
            Clashes::OutOfBounds(clashes) => both(clashes.first().map(Clash::figures)),
            Clashes::Unequal(differences) => both(differences.first().map(Difference::figures)),
            Clashes::TooManyTracks(shares) => shares.clone(),
            Clashes::NotTold => Vec::new(),
        }
    }
}

fn both(figures: Option<[Figure; 2]>) -> Vec<Figure> {
    figures.into_iter().flatten().collect()
}

/// The clashes of an object, or of a set under the object whose span it is in.
fn out_of_bounds(record: &Record) -> Vec<Clash> {
    let sheet = record.sheet();
    match record.section {
        VALUE_SET => match owners(sheet)[record.index] {
            Some(owner) => bounds::of_set(&sheet.record(OBJECT, owner), record),
            None => Vec::new(),
        },
        _ => bounds::of_object(record),
    }
}

/// The figures that are told of a sheet.
pub fn figures(sheet: &[u8], langs: &[u8]) -> Vec<Figure> {
    Clashes::at(Sheet::new(sheet, langs), check(sheet, langs)).figures()
}

/// What `sheetfigures` prints: "after the verdict line, the figures with their records"; "for
/// any other verdict it prints the verdict line only".
pub fn lines(sheet: &[u8], langs: &[u8]) -> String {
    let mut lines = format!("{}\n", check(sheet, langs));
    for figure in figures(sheet, langs) {
        lines += &format!("{figure}\n");
    }
    lines
}
