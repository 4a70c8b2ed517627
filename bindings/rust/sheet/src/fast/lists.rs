//! Rules 4 and 5: lists, spans and indices stay inside their sections.

use super::runs::first_with;
use super::sections::{index, list, word, Object, Programme, Sections};
use super::{at, lowest};
use crate::second::view::{
    content, object, programme, track, List, CONTENT, NO_PACK, OBJECT, PROGRAMME, TRACK,
};
use crate::second::Verdict;

/// How many entries the lists of each kind have together.
#[derive(Default)]
pub struct Totals {
    /// Contents of programmes.
    pub contents: usize,
    /// Value sets of programmes.
    pub sets: usize,
    /// Labels of programmes.
    pub programme_labels: usize,
    /// Labels of contents.
    pub content_labels: usize,
    /// Tracks of objects.
    pub tracks: usize,
    /// Children of objects.
    pub children: usize,
    /// Complements of objects.
    pub complements: usize,
}

pub fn rule_4(sheet: &Sections) -> Result<Totals, Verdict> {
    let mut totals = Totals::default();
    let references = sheet.references.len();
    let within = |list: List, total: &mut usize| {
        *total += list.count;
        list.first + list.count <= references
    };
    let programme = |programme: &Programme| {
        within(list(programme, programme::CONTENTS), &mut totals.contents)
            && within(list(programme, programme::SETS), &mut totals.sets)
            && within(list(programme, programme::LABELS), &mut totals.programme_labels)
    };
    at(4, PROGRAMME, first_not(sheet.programmes, programme))?;
    let content = |content: &_| within(list(content, content::LABELS), &mut totals.content_labels);
    at(4, CONTENT, first_not(sheet.contents, content))?;
    let object = |object: &Object| {
        let span = list(object, object::SETS);
        within(list(object, object::TRACKS), &mut totals.tracks)
            && within(list(object, object::CHILDREN), &mut totals.children)
            && within(list(object, object::COMPLEMENTS), &mut totals.complements)
            && span.first + span.count <= sheet.value_sets.len()
    };
    at(4, OBJECT, first_not(sheet.objects, object))?;
    Ok(totals)
}

fn first_not<Record>(records: &[Record], mut kept: impl FnMut(&Record) -> bool) -> Option<usize> {
    records.iter().position(|record| !kept(record))
}

pub fn rule_5(sheet: &Sections, totals: &Totals) -> Result<(), Verdict> {
    at(5, PROGRAMME, programme_naming_lacking(sheet, totals))?;
    let lacks_object = |content| index(content, content::OBJECT) >= sheet.objects.len();
    at(5, CONTENT, sheet.contents.iter().position(lacks_object))?;
    at(5, OBJECT, object_naming_lacking(sheet, totals))?;
    let lacks_pack = |track| index(track, track::PACK) >= sheet.packs.len();
    at(5, TRACK, sheet.tracks.iter().position(lacks_pack))
}

fn programme_naming_lacking(sheet: &Sections, totals: &Totals) -> Option<usize> {
    let lacking = |field, total, length: usize| {
        let lists = sheet.programmes.iter().map(move |programme| list(programme, field));
        first_with(sheet.references, total, lists, |entry| usize::from(entry) >= length)
    };
    lowest([
        lacking(programme::CONTENTS, totals.contents, sheet.contents.len()),
        lacking(programme::SETS, totals.sets, sheet.value_sets.len()),
    ])
}

fn object_naming_lacking(sheet: &Sections, totals: &Totals) -> Option<usize> {
    let lacking = |field, total, length: usize| {
        let lists = sheet.objects.iter().map(move |object| list(object, field));
        first_with(sheet.references, total, lists, |entry| usize::from(entry) >= length)
    };
    let lacks_pack = |object| {
        let pack = word(object, object::PACK);
        pack != NO_PACK && usize::from(pack) >= sheet.packs.len()
    };
    lowest([
        sheet.objects.iter().position(lacks_pack),
        lacking(object::TRACKS, totals.tracks, sheet.tracks.len()),
        lacking(object::CHILDREN, totals.children, sheet.objects.len()),
        lacking(object::COMPLEMENTS, totals.complements, sheet.objects.len()),
    ])
}
