//! Rule 6: every word has one of its values.

use super::least;
use crate::second::terms::{KIND_DIRECT_SPEAKERS, KIND_OBJECTS};
use crate::second::values::Values;
use crate::second::view::{
    content, object, pack, programme, value_set, Place, Record, Sheet, CONTENT, OBJECT, PACK,
    PROGRAMME, VALUE_SET,
};

/// "A record has a word, or a label, outside the values above, half a pair, or own 0 with
/// a range word present."
pub fn rule_6(sheet: Sheet) -> Option<Place> {
    let programmes = sheet.records(PROGRAMME).filter(programme_is_bad);
    let contents = sheet.records(CONTENT).filter(content_is_bad);
    let objects = sheet.records(OBJECT).filter(object_is_bad);
    let packs = sheet.records(PACK).filter(pack_is_bad);
    let sets = sheet.records(VALUE_SET).filter(set_is_bad);
    least(programmes.chain(contents).chain(objects).chain(packs).chain(sets))
}

fn programme_is_bad(programme: &Record) -> bool {
    !is_language(programme, programme.word(programme::LANGUAGE))
        || !labels_are_languages(programme, programme::LABELS)
        || !is_loudness(programme.word(programme::LOUDNESS))
}

fn content_is_bad(content: &Record) -> bool {
    !is_language(content, content.word(content::LANGUAGE))
        || !labels_are_languages(content, content::LABELS)
        || !is_loudness(content.word(content::LOUDNESS))
}

fn object_is_bad(object: &Record) -> bool {
    !is_0_or_1(object.word(object::INTERACT)) || values_are_bad(object.values())
}

fn pack_is_bad(pack: &Record) -> bool {
    !is_kind(pack.word(pack::KIND)) || !is_0_or_1(pack.word(pack::FRONT))
}

fn set_is_bad(set: &Record) -> bool {
    let own = set.word(value_set::OWN);
    !is_0_or_1(own) || values_are_bad(set.values()) || own == 0 && set.values().has_range()
}

/// Whether a gain, offset or range word is outside its values, or half of a pair.
pub(crate) fn values_are_bad(values: Values) -> bool {
    !values.are_legal() || values.have_half_a_pair()
}

/// Whether all entries of the label list at a field are languages.
fn labels_are_languages(record: &Record, field: usize) -> bool {
    record.entries(field).all(|label| is_language(record, label as u16))
}

/// "Rule 6 refuses the others" than good codes (document 02, L2).
fn is_language(record: &Record, word: u16) -> bool {
    record.sheet().languages().makes_good(word)
}

/// "Loudness is 1 integrated, 2 dialogue, 3 both."
pub(crate) fn is_loudness(word: u16) -> bool {
    (1..=3).contains(&word)
}

/// A word such as interact, own or front.
pub(crate) fn is_0_or_1(word: u16) -> bool {
    word <= 1
}

/// "1 DirectSpeakers, 3 Objects."
pub(crate) fn is_kind(word: u16) -> bool {
    [KIND_DIRECT_SPEAKERS, KIND_OBJECTS].contains(&word)
}
