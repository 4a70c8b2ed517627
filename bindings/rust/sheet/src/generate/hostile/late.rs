//! Long lists that are right but for one entry or word, met last: at the last record, or
//! at the end of one long list.

use super::shared::parent_of;
use super::{
    a_with_run, broken, copy_content, copy_object, copy_programme, copy_top_object, generated,
    of_languages, set_lists, top_objects, Generated, Size,
};
use crate::build::{bytes, overwrite, word, Plan, ValueSet};
use crate::generate::languages::lists::three_letters;
use crate::second::view::{
    content, object, programme, value_set, CONTENT, OBJECT, PROGRAMME, VALUE_SET,
};
use crate::second::Verdict::Accepted;

/// The sheets that break a rule late, and their accepted neighbours.
pub fn sheets(size: Size) -> Vec<Generated> {
    let mut sheets = vec![children_of_last(size)];
    sheets.extend(lacking(size));
    sheets.extend(labels(size));
    sheets.extend(sets_of_one(size));
    sheets.extend(last_child(size));
    sheets.push(last_member(size));
    sheets
}

/// A sheet with the lists at some fields of a section's records over all but the last
/// entry of the run, which only the last list of the last record reaches.
fn all_but_last(plan: &Plan, section: u8, fields: &[usize]) -> Vec<u8> {
    let run = plan.stray_entries.len();
    let mut words = plan.words();
    let last_record = usize::from(words[2 * usize::from(section)]) - 1;
    for field in fields {
        set_lists(&mut words, run, (section, *field), |_| (0, run - 1));
    }
    if let Some(field) = fields.last() {
        overwrite(&mut words, section, last_record, field + 1, word(run));
    }
    bytes(&words)
}

/// Lists of index 0 that end with an index that every section lacks.
fn lacking(size: Size) -> Vec<Generated> {
    let mut run = vec![0; size.run()];
    run.push(65_535);
    let mut programmes = a_with_run(size, run.clone(), |plan, left| copy_programme(plan, left - 7));
    programmes.add_sets(0, &[ValueSet::NONE]);
    let objects = a_with_run(size, run, copy_object);
    let of_programmes = [programme::CONTENTS, programme::SETS];
    let of_objects = [object::TRACKS, object::CHILDREN, object::COMPLEMENTS];
    vec![
        generated(
            "programme lists, a set lacking",
            all_but_last(&programmes, PROGRAMME, &of_programmes),
            broken(5, 1, programmes.programmes.len() - 1),
        ),
        generated(
            "object lists, a complement lacking",
            all_but_last(&objects, OBJECT, &of_objects),
            broken(5, 3, objects.objects.len() - 1),
        ),
    ]
}

/// Labels of which the last is no language, or comes twice.
fn labels(size: Size) -> Vec<Generated> {
    let languages: Vec<u16> = three_letters().take(size.run()).collect();
    let run_with = |last: u16| [&languages[..], &[last]].concat();
    let programmes = |last| a_with_run(size, run_with(last), copy_programme);
    let contents = |last| a_with_run(size, run_with(last), copy_content);
    let of_programmes = |name, rule, last| {
        let plan = programmes(last);
        let sheet = all_but_last(&plan, PROGRAMME, &[programme::LABELS]);
        of_languages(name, sheet, broken(rule, 1, plan.programmes.len() - 1))
    };
    let of_contents = |name, rule, last| {
        let plan = contents(last);
        let sheet = all_but_last(&plan, CONTENT, &[content::LABELS]);
        of_languages(name, sheet, broken(rule, 2, plan.contents.len() - 1))
    };
    vec![
        of_programmes("programme labels, one no language", 6, 0),
        of_programmes("programme labels, one twice", 9, languages[0]),
        of_contents("content labels, one no language", 6, 0),
        of_contents("content labels, one twice", 9, languages[0]),
    ]
}

/// Top objects that all have the last one as a child again and again.
fn children_of_last(size: Size) -> Generated {
    let mut plan = a_with_run(size, vec![0; size.run()], copy_top_object);
    let last = plan.objects.len() - 1;
    plan.stray_entries.fill(word(last));
    let sheet = super::over_run(&plan, (OBJECT, object::CHILDREN));
    generated("children, all the last object", sheet, broken(11, 3, last))
}

/// The sheets with a word of a record overwritten, each with its verdict.
fn variants(
    plan: &Plan,
    (section, record): (u8, usize),
    variants: &[(&str, usize, u16, super::Verdict)],
) -> Vec<Generated> {
    let sheet = |&(name, field, value, expected): &(&str, usize, u16, _)| {
        let mut words = plan.words();
        overwrite(&mut words, section, record, field, value);
        generated(name, bytes(&words), expected)
    };
    variants.iter().map(sheet).collect()
}

/// One object with as many sets as fit; all is right, or the last set isn't.
fn sets_of_one(size: Size) -> Vec<Generated> {
    let mut plan = top_objects(1);
    plan.objects[0].interact = 1;
    plan.objects[0].values.gain_range = (-60, 60);
    plan.add_sets(0, &vec![ValueSet::NONE; size.part(4660)]);
    let last = plan.value_sets.len() - 1;
    variants(
        &plan,
        (VALUE_SET, last),
        &[
            ("sets of one object", value_set::GAIN, 60, Accepted),
            ("sets of one object, an offset", value_set::OFFSET, 0, broken(17, 7, last)),
            ("sets of one object, a gain outside", value_set::GAIN, 61, broken(18, 7, last)),
        ],
    )
}

/// One object with as many children as fit, of which the last is no child.
fn last_child(size: Size) -> Vec<Generated> {
    let mut plan = parent_of(size);
    let speakers = plan.add_pack(1, 1, 0);
    let last = plan.objects.len() - 1;
    variants(
        &plan,
        (OBJECT, last),
        &[
            ("children of one object, one on speakers", object::PACK, speakers, broken(13, 3, 0)),
            ("children of one object, one with a gain", object::GAIN, 0, broken(15, 3, last)),
        ],
    )
}

/// One group of all objects, of which the last has a gain.
fn last_member(size: Size) -> Generated {
    let mut plan = top_objects(size.part(1350));
    let last = plan.objects.len() - 1;
    plan.objects[0].complements = (1..=word(last)).collect();
    plan.objects[last].values.gain = 0;
    generated("one group, a member differs", plan.bytes(), broken(20, 3, 0))
}
