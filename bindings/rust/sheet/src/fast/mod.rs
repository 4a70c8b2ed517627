//! The second checker once more, written for speed: the same verdict on every sheet and list.
//!
//! The sections are split once into slices of records. What the plain checker searches
//! for again and again stands in tables, which are sized by the counts of the sheet and
//! lie on the stack where it is small. Where many records share long lists, so that the
//! lists have more entries together than section 6, questions about lists are answered
//! from tables over section 6 (`runs`) instead of by walking.
//!
//! The gain of a plain factor and the block times of a live frame stand apart from the checker, in
//! `factors` and `frames`.

/// Gains of plain factors.
pub mod factors;
/// Block times of a live frame.
pub mod frames;
mod groups;
mod languages;
mod limits;
mod lists;
mod names;
mod objects;
mod runs;
mod sections;
mod sets;
mod sweep;
mod tables;
mod tracks;
mod values;
mod words;

use self::languages::Languages;
use self::sections::Sections;
use self::tables::Tables;
use crate::second::Verdict;

/// The verdict on a sheet, with the list of language words that is lent beside it.
pub fn check(sheet: &[u8], langs: &[u8]) -> Verdict {
    match first_broken(sheet, langs) {
        Ok(()) => Verdict::Accepted,
        Err(verdict) => verdict,
    }
}

fn first_broken(sheet: &[u8], langs: &[u8]) -> Result<(), Verdict> {
    let languages = Languages::split(langs)?;
    let sheet = Sections::split(sheet)?;
    let totals = lists::rule_4(&sheet)?;
    lists::rule_5(&sheet, &totals)?;
    words::rule_6(&sheet, &totals, languages)?;
    limits::rule_7(&sheet)?;
    limits::rule_8(&sheet)?;
    names::rule_9(&sheet)?;
    limits::rule_10(&sheet)?;
    let mut on_stack = [0; 256];
    let mut on_heap = Vec::new();
    let mut tables = Tables::over(&mut on_stack, &mut on_heap, &sheet);
    names::rule_11(&sheet, &totals, &mut tables)?;
    names::rule_12(&sheet, &totals, &mut tables)?;
    objects::rule_13(&sheet)?;
    tracks::rule_14(&sheet)?;
    objects::rule_15(&sheet, &tables)?;
    values::rule_16(&sheet)?;
    values::rule_17(&sheet)?;
    values::rule_18(&sheet)?;
    groups::rule_19(&sheet, &totals, &mut tables)?;
    groups::rule_20(&sheet, &totals)?;
    match totals.contents + totals.sets <= sheet.references.len() {
        true => {
            groups::rule_21(&sheet, &mut tables)?;
            sets::rule_22(&sheet, &totals, &mut tables)?;
        }
        false => sweep::rules_21_and_22(&sheet, &totals, &mut tables)?,
    }
    limits::rule_23(&sheet, &totals)?;
    limits::rule_24(&sheet, &tables)
}

/// Breaks the rule at the record, if there is one.
fn at(rule: u8, section: u8, record: Option<usize>) -> Result<(), Verdict> {
    match record {
        None => Ok(()),
        Some(record) => Err(Verdict::Broken { rule, section, record: record as u16 }),
    }
}

/// Breaks the rule at a section as a whole, or at the header, if it is broken.
fn at_section(rule: u8, section: u8, broken: bool) -> Result<(), Verdict> {
    at(rule, section, broken.then_some(0))
}

/// The lowest of the records that break a rule.
fn lowest<const RECORDS: usize>(records: [Option<usize>; RECORDS]) -> Option<usize> {
    records.into_iter().flatten().min()
}
