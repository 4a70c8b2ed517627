//! Rules 33 and 1 to 3: the list lent beside the sheet, the header and the layout of the sections.

use super::header_if;
use crate::second::view::{Place, Sheet, HEADER, RECORD_WORDS, VALUE_SET};

/// "33, tested before rule 1 with the header as its place, the lent list isn't strictly rising"
/// (document 02, L2).
pub fn rule_33(sheet: Sheet) -> Option<Place> {
    header_if(!sheet.languages().rises_strictly())
}

/// "The header: the sheet is under 32 bytes, over 65,534 bytes or odd."
pub fn rule_1(sheet: Sheet) -> Option<Place> {
    let length = sheet.length();
    header_if(!(32..=65_534).contains(&length) || length % 2 == 1)
}

/// "The header has an edition other than 1 or a level above 2."
pub fn rule_2(sheet: Sheet) -> Option<Place> {
    header_if(sheet.edition() != 1 || sheet.level() > 2)
}

/// "A section's offset isn't the end of the one before (16 for the first), or section 7
/// doesn't end with the sheet."
pub fn rule_3(sheet: Sheet) -> Option<Place> {
    (1..=VALUE_SET)
        .filter(|&section| {
            sheet.offset(section) != end(sheet, section - 1)
                || section == VALUE_SET && 2 * end(sheet, section) != sheet.length()
        })
        .map(Place::section)
        .min()
}

/// The word after the last of a section.
fn end(sheet: Sheet, section: u8) -> usize {
    let size = RECORD_WORDS[usize::from(section)];
    match section {
        HEADER => size,
        _ => sheet.offset(section) + size * sheet.count(section),
    }
}
