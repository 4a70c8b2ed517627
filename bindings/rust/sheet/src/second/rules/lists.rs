//! Rules 4 and 5: lists, spans and indices stay inside their sections.

use super::least;
use crate::second::terms::pack_of;
use crate::second::view::{
    content, object, programme, track, Place, Record, Sheet, CONTENT, OBJECT, PACK, PROGRAMME,
    REFERENCE, TRACK, VALUE_SET,
};

/// The lists and spans of a section's records: field, and section that it points into.
fn lists_of(section: u8) -> &'static [(usize, u8)] {
    match section {
        PROGRAMME => &[
            (programme::CONTENTS, REFERENCE),
            (programme::SETS, REFERENCE),
            (programme::LABELS, REFERENCE),
        ],
        CONTENT => &[(content::LABELS, REFERENCE)],
        OBJECT => &[
            (object::TRACKS, REFERENCE),
            (object::CHILDREN, REFERENCE),
            (object::COMPLEMENTS, REFERENCE),
            (object::SETS, VALUE_SET),
        ],
        _ => &[],
    }
}

/// "A record has a list or span with first plus count beyond its section, count 0 too."
pub fn rule_4(sheet: Sheet) -> Option<Place> {
    let beyond = |record: &Record| {
        lists_of(record.section).iter().any(|&(field, section)| {
            let list = record.list(field);
            list.first + list.count > sheet.count(section)
        })
    };
    least((PROGRAMME..=OBJECT).flat_map(|section| sheet.records(section)).filter(beyond))
}

/// "A record, or an entry of its lists, names an index that its section lacks."
pub fn rule_5(sheet: Sheet) -> Option<Place> {
    let programmes =
        sheet.records(PROGRAMME).filter(|programme| programme_names_lacking(programme));
    let contents = sheet
        .records(CONTENT)
        .filter(|content| content.index_at(content::OBJECT) >= sheet.count(OBJECT));
    let objects = sheet.records(OBJECT).filter(|object| object_names_lacking(object));
    let tracks =
        sheet.records(TRACK).filter(|track| track.index_at(track::PACK) >= sheet.count(PACK));
    least(programmes.chain(contents).chain(objects).chain(tracks))
}

fn programme_names_lacking(programme: &Record) -> bool {
    entry_lacking(programme, programme::CONTENTS, CONTENT)
        || entry_lacking(programme, programme::SETS, VALUE_SET)
}

fn object_names_lacking(object: &Record) -> bool {
    pack_of(object).is_some_and(|pack| pack.index >= object.sheet().count(PACK))
        || entry_lacking(object, object::TRACKS, TRACK)
        || entry_lacking(object, object::CHILDREN, OBJECT)
        || entry_lacking(object, object::COMPLEMENTS, OBJECT)
}

fn entry_lacking(record: &Record, field: usize, section: u8) -> bool {
    record.entries(field).any(|index| index >= record.sheet().count(section))
}
