//! Programmes as many as fit, with languages and labels of their own.

use super::{a_with_run, broken, copy_programme, of_languages, with_lists, Generated, Size};
use crate::build::{bytes, overwrite, position, Plan};
use crate::generate::languages::lists::{self, three_letters};
use crate::second::view::{content, programme, CONTENT, PROGRAMME};
use crate::second::Verdict::Accepted;

/// Labels of a programme where all languages are different.
const LABELS: usize = 4;

/// The sheets of many languages.
pub fn sheets(size: Size) -> Vec<Generated> {
    vec![
        all_different(size),
        last_not_listed(size),
        all_the_same("languages, all the first of the list", size, true),
        all_the_same("languages, all the last of the list", size, false),
    ]
}

/// A at level 0 with copies of its programme, each with so many entries of the run as labels.
fn programmes(size: Size, labels: usize, entries: &[u16]) -> Plan {
    let records = size.part(32_000) / (8 + labels);
    let run = entries[..records * labels].to_vec();
    a_with_run(size, run, |plan, left| copy_programme(plan, left - 8))
}

/// The words of the sheet, with windows of the run as label lists and these languages.
fn laid_out(plan: &Plan, labels: usize, language: impl Fn(usize) -> u16) -> Vec<u16> {
    let runs = plan.stray_entries.len() / labels;
    let list = |record: usize| ((record % runs) * labels, labels);
    let mut words = with_lists(plan, (PROGRAMME, programme::LABELS), list);
    for record in 0..plan.programmes.len() {
        overwrite(&mut words, PROGRAMME, record, programme::LANGUAGE, language(record));
    }
    words
}

/// Languages from the end of the list, labels from its front: on the largest sheet each is used
/// once.
fn different(size: Size) -> (Plan, Vec<u16>) {
    let codes: Vec<u16> = three_letters().collect();
    let plan = programmes(size, LABELS, &codes);
    let words = laid_out(&plan, LABELS, |record| codes[codes.len() - 1 - record]);
    (plan, words)
}

fn all_different(size: Size) -> Generated {
    let (_, words) = different(size);
    of_languages("languages, all different", bytes(&words), Accepted)
}

/// The list lacks the language of the last programme.
fn last_not_listed(size: Size) -> Generated {
    let (plan, words) = different(size);
    let last = plan.programmes.len() - 1;
    let lacking = words[position(&words, PROGRAMME, last, programme::LANGUAGE)];
    let name = "languages, all different, the last not listed";
    let generated = of_languages(name, bytes(&words), broken(6, PROGRAMME, last));
    Generated { langs: lists::of(three_letters().filter(|&code| code != lacking)), ..generated }
}

/// One word for all languages and labels.
fn all_the_same(name: &str, size: Size, is_first: bool) -> Generated {
    let codes: Vec<u16> = three_letters().collect();
    let language = if is_first { codes[0] } else { codes[codes.len() - 1] };
    let plan = programmes(size, 1, &vec![language; 32_767]);
    let mut words = laid_out(&plan, 1, |_| language);
    overwrite(&mut words, CONTENT, 0, content::LANGUAGE, language);
    of_languages(name, bytes(&words), Accepted)
}
