//! Rule 6: every word has one of its values.

use super::languages::Languages;
use super::lists::Totals;
use super::runs::first_with;
use super::sections::{list, word, Content, Object, Pack, Programme, Sections, ValueSet};
use super::values::{values_of_object, values_of_set};
use super::{at, lowest};
use crate::second::rules::words::{is_0_or_1, is_kind, is_loudness, values_are_bad};
use crate::second::view::{
    content, object, pack, programme, value_set, CONTENT, OBJECT, PACK, PROGRAMME, VALUE_SET,
};
use crate::second::Verdict;

pub fn rule_6(sheet: &Sections, totals: &Totals, languages: Languages) -> Result<(), Verdict> {
    match languages.is_long_for(lookups(sheet, totals)) {
        true => {
            let table = languages.table();
            programmes_and_contents(sheet, totals, |word| table.makes_good(word))?;
        }
        false => programmes_and_contents(sheet, totals, |word| languages.makes_good(word))?,
    }
    at(6, OBJECT, sheet.objects.iter().position(object_is_bad))?;
    at(6, PACK, sheet.packs.iter().position(pack_is_bad))?;
    at(6, VALUE_SET, sheet.value_sets.iter().position(set_is_bad))
}

/// How many language words are looked up at most; long lists are judged from section 6.
fn lookups(sheet: &Sections, totals: &Totals) -> usize {
    let labels = |total: usize| total.min(sheet.references.len());
    sheet.programmes.len()
        + labels(totals.programme_labels)
        + sheet.contents.len()
        + labels(totals.content_labels)
}

fn programmes_and_contents(
    sheet: &Sections,
    totals: &Totals,
    is_good: impl Fn(u16) -> bool,
) -> Result<(), Verdict> {
    let is_bad = |language, loudness| !is_good(language) || !is_loudness(loudness);
    let programme_is_bad = |programme: &Programme| {
        is_bad(word(programme, programme::LANGUAGE), word(programme, programme::LOUDNESS))
    };
    let lists = sheet.programmes.iter().map(|programme| list(programme, programme::LABELS));
    let labels = first_with(sheet.references, totals.programme_labels, lists, |l| !is_good(l));
    at(6, PROGRAMME, lowest([sheet.programmes.iter().position(programme_is_bad), labels]))?;
    let content_is_bad = |content: &Content| {
        is_bad(word(content, content::LANGUAGE), word(content, content::LOUDNESS))
    };
    let lists = sheet.contents.iter().map(|content| list(content, content::LABELS));
    let labels = first_with(sheet.references, totals.content_labels, lists, |l| !is_good(l));
    at(6, CONTENT, lowest([sheet.contents.iter().position(content_is_bad), labels]))
}

fn object_is_bad(object: &Object) -> bool {
    !is_0_or_1(word(object, object::INTERACT)) || values_are_bad(values_of_object(object))
}

fn pack_is_bad(pack: &Pack) -> bool {
    !is_kind(word(pack, pack::KIND)) || !is_0_or_1(word(pack, pack::FRONT))
}

fn set_is_bad(set: &ValueSet) -> bool {
    let own = word(set, value_set::OWN);
    let values = values_of_set(set);
    !is_0_or_1(own) || values_are_bad(values) || own == 0 && values.has_range()
}
