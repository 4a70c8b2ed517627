//! Rules 9, 11 and 12: what is named once, twice or not at all.

use super::at;
use super::languages::LANGUAGES;
use super::lists::Totals;
use super::runs::{cover, each_covered, next_repeats, reaches};
use super::sections::{index, list, Sections};
use super::tables::{Tables, CHILD, TOP};
use crate::second::view::{
    content, object, programme, List, CONTENT, OBJECT, PROGRAMME, VALUE_SET,
};
use crate::second::Verdict;

/// Label lists up to this length are judged by comparing pairs.
const SHORT: usize = 8;

pub fn rule_9(sheet: &Sections) -> Result<(), Verdict> {
    let mut repeats = None;
    let mut has_twice = |labels: List| match labels.count {
        0..=SHORT => has_equal_pair(sheet, labels),
        _ => reaches(repeats.get_or_insert_with(|| label_repeats(sheet)), labels),
    };
    let mut programmes = sheet.programmes.iter();
    at(9, PROGRAMME, programmes.position(|record| has_twice(list(record, programme::LABELS))))?;
    let mut contents = sheet.contents.iter();
    at(9, CONTENT, contents.position(|record| has_twice(list(record, content::LABELS))))
}

fn has_equal_pair(sheet: &Sections, labels: List) -> bool {
    let labels = &sheet.references[labels.first..labels.first + labels.count];
    labels.iter().enumerate().any(|(number, label)| labels[..number].contains(label))
}

fn label_repeats(sheet: &Sections) -> Vec<u16> {
    next_repeats(sheet.references, LANGUAGES, Some)
}

pub fn rule_11(sheet: &Sections, totals: &Totals, tables: &mut Tables) -> Result<(), Verdict> {
    count_names(sheet, totals, tables.names);
    let mut names = tables.names.iter();
    at(11, OBJECT, names.position(|&times| times != TOP && times != CHILD))?;
    if sheet.value_sets.is_empty() {
        return Ok(());
    }
    cover(tables.spans, sheet.objects.iter().map(|object| list(object, object::SETS)));
    let spans = &tables.spans[..sheet.value_sets.len()];
    at(11, VALUE_SET, spans.iter().position(|&times| times != 1))
}

fn count_names(sheet: &Sections, totals: &Totals, names: &mut [u32]) {
    for content in sheet.contents {
        names[index(content, content::OBJECT)] += TOP;
    }
    let mut lists = sheet.objects.iter().map(|object| list(object, object::CHILDREN));
    match totals.children {
        0 => {}
        total if total <= sheet.references.len() => lists.for_each(|children| {
            sheet.entries(children).for_each(|child| names[child] += CHILD);
        }),
        _ => each_covered(sheet.references, &mut lists, |child, times| {
            names[child] = names[child].saturating_add(times.saturating_mul(CHILD));
        }),
    }
}

pub fn rule_12(sheet: &Sections, totals: &Totals, tables: &mut Tables) -> Result<(), Verdict> {
    let repeating = match totals.contents <= sheet.references.len() {
        true => stamp_contents(sheet, tables.programmes),
        false => cover_contents(sheet, tables.programmes),
    };
    at(12, PROGRAMME, repeating)?;
    at(12, CONTENT, tables.programmes.iter().position(|&stamp| stamp == 0))
}

/// Stamps the contents of the programmes, up to the first that names one twice.
fn stamp_contents(sheet: &Sections, programmes: &mut [u32]) -> Option<usize> {
    (1..).zip(sheet.programmes).position(|(stamp, programme)| {
        let mut contents = sheet.entries(list(programme, programme::CONTENTS));
        contents.any(|content| std::mem::replace(&mut programmes[content], stamp) == stamp)
    })
}

/// The same by tables over section 6; the stamps tell only which contents are named.
fn cover_contents(sheet: &Sections, programmes: &mut [u32]) -> Option<usize> {
    let lists = || sheet.programmes.iter().map(|record| list(record, programme::CONTENTS));
    each_covered(sheet.references, lists(), |content, times| programmes[content] = times);
    let repeats = next_repeats(sheet.references, sheet.contents.len(), Some);
    lists().position(|contents| reaches(&repeats, contents))
}
