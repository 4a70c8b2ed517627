//! Rules 9, 11 and 12: what is named once, twice or not at all.

use super::least;
use crate::second::terms::{has_twice, namings};
use crate::second::view::{
    content, object, programme, Place, Sheet, CONTENT, OBJECT, PROGRAMME, VALUE_SET,
};

/// "A programme or content has one label language twice."
pub fn rule_9(sheet: Sheet) -> Option<Place> {
    let programmes = sheet
        .records(PROGRAMME)
        .filter(|programme| has_twice(programme.entries(programme::LABELS)));
    let contents =
        sheet.records(CONTENT).filter(|content| has_twice(content.entries(content::LABELS)));
    least(programmes.chain(contents))
}

/// "An object isn't named exactly once by all contents and child lists together, or a
/// value set isn't in exactly one span."
pub fn rule_11(sheet: Sheet) -> Option<Place> {
    let by_contents = sheet.records(CONTENT).map(|content| content.index_at(content::OBJECT));
    let by_child_lists = sheet.records(OBJECT).flat_map(|object| object.entries(object::CHILDREN));
    let in_spans = sheet.records(OBJECT).flat_map(|object| object.sets()).map(|set| set.index);
    let object_namings = namings(sheet.count(OBJECT), by_contents.chain(by_child_lists));
    let set_spans = namings(sheet.count(VALUE_SET), in_spans);
    let objects = sheet.records(OBJECT).filter(|object| object_namings[object.index] != 1);
    let sets = sheet.records(VALUE_SET).filter(|set| set_spans[set.index] != 1);
    least(objects.chain(sets))
}

/// "A programme names a content twice, or a content is in no programme."
pub fn rule_12(sheet: Sheet) -> Option<Place> {
    let in_programmes =
        sheet.records(PROGRAMME).flat_map(|programme| programme.entries(programme::CONTENTS));
    let content_namings = namings(sheet.count(CONTENT), in_programmes);
    let programmes = sheet
        .records(PROGRAMME)
        .filter(|programme| has_twice(programme.entries(programme::CONTENTS)));
    let contents = sheet.records(CONTENT).filter(|content| content_namings[content.index] == 0);
    least(programmes.chain(contents))
}
