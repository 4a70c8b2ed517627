//! Sheets of unusual length, and large sheets of level 0 made to be slow to check: many
//! records with lists over one long run of entries.

mod languages;
mod late;
mod shared;
mod shifted;

use super::clauses::common_list;
use super::languages::lists;
use super::random::Random;
use super::Generated;
use crate::build::{bytes, overwrite, word, Plan, LARGEST};
use crate::second::Verdict;

/// All hostile sheets, as large as they get.
pub fn sheets() -> Vec<Generated> {
    sheets_of(LARGEST)
}

/// All hostile sheets, of about so many words: 500 or more.
pub fn sheets_of(words: usize) -> Vec<Generated> {
    let size = Size(words);
    let mut sheets = shared::sheets(size);
    sheets.extend(shifted::sheets(size));
    sheets.extend(late::sheets(size));
    sheets.extend(languages::sheets(size));
    sheets
}

/// The size of a sheet, in words.
#[derive(Clone, Copy)]
struct Size(usize);

impl Size {
    /// A number of records or entries that suits a largest sheet, scaled down.
    fn part(self, of_largest: usize) -> usize {
        // Some words stand in every sheet.
        let fixed = 64;
        of_largest * (self.0 - fixed) / (LARGEST - fixed)
    }

    /// The words that a plan leaves free.
    fn left(self, plan: &Plan) -> usize {
        self.0.saturating_sub(plan.words().len())
    }

    /// The number of entries in a run that many lists share.
    fn run(self) -> usize {
        self.part(16_000)
    }
}

fn broken(rule: u8, section: u8, record: usize) -> Verdict {
    Verdict::Broken { rule, section, record: word(record) }
}

/// A sheet in English, which the list of ISO 639-2 has.
fn generated(name: &str, sheet: Vec<u8>, expected: Verdict) -> Generated {
    let (name, langs) = (format!("hostile {name}"), lists::REAL.to_vec());
    Generated { name, sheet, langs, expected: Some(expected) }
}

/// A sheet of any languages.
fn of_languages(name: &str, sheet: Vec<u8>, expected: Verdict) -> Generated {
    Generated { langs: lists::every(), ..generated(name, sheet, expected) }
}

/// The words of the plan, with new lists at a field of every record of a section. A list
/// is given by its record as first and count in the run, which the unused entries are.
pub(super) fn with_lists(
    plan: &Plan,
    (section, field): (u8, usize),
    list: impl Fn(usize) -> (usize, usize),
) -> Vec<u16> {
    let mut words = plan.words();
    set_lists(&mut words, plan.stray_entries.len(), (section, field), list);
    words
}

/// The same in a sheet of which the last entries are the run.
pub(super) fn set_lists(
    words: &mut [u16],
    run: usize,
    (section, field): (u8, usize),
    list: impl Fn(usize) -> (usize, usize),
) {
    let start = usize::from(words[12]) - run;
    for record in 0..usize::from(words[2 * usize::from(section)]) {
        let (first, count) = list(record);
        overwrite(words, section, record, field, word(start + first));
        overwrite(words, section, record, field + 1, word(count));
    }
}

/// The sheet with the list at a field of every record of a section over the whole run.
fn over_run(plan: &Plan, list: (u8, usize)) -> Vec<u8> {
    let run = plan.stray_entries.len();
    bytes(&with_lists(plan, list, |_| (0, run)))
}

/// A at level 0, with as many copies of a record as leave space for the run.
fn a_with_run(size: Size, run: Vec<u16>, copies: fn(&mut Plan, usize)) -> Plan {
    let mut plan = Plan::sheet_a();
    plan.level = 0;
    plan.stray_entries = run;
    let left = size.left(&plan);
    copies(&mut plan, left);
    plan
}

fn copy_programme(plan: &mut Plan, left: usize) {
    plan.shares_entries = true;
    plan.programmes = vec![plan.programmes[0].clone(); 1 + left / 8];
}

fn copy_content(plan: &mut Plan, left: usize) {
    plan.contents = vec![plan.contents[0].clone(); 1 + left / 5];
}

fn copy_object(plan: &mut Plan, left: usize) {
    plan.shares_entries = true;
    plan.objects = vec![plan.objects[0].clone(); 1 + left / 16];
}

/// Copies of object 0, each with a content in programme 0.
fn copy_top_object(plan: &mut Plan, left: usize) {
    add_top_objects(plan, left / 22);
    plan.shares_entries = true;
}

/// Adds a number of copies of object 0, each with a content in programme 0.
fn add_top_objects(plan: &mut Plan, number: usize) {
    for _ in 0..number {
        plan.objects.push(plan.objects[0].clone());
        plan.include(word(plan.objects.len() - 1));
    }
}

/// So many top objects at level 0, all in programme 0.
fn top_objects(number: usize) -> Plan {
    let mut plan = Plan::sheet_a();
    plan.level = 0;
    add_top_objects(&mut plan, number - 1);
    plan
}

/// Sheets of lengths around 0, 32 and 65,534 bytes.
pub fn lengths() -> Vec<Generated> {
    let mut random = Random::new(32);
    let around = [0, 1, 2, 3, 16, 30, 31, 32, 33, 34, 36, 65_532, 65_533];
    let beyond = [65_535, 65_536, 65_537, 65_538, 100_000, 131_072, 131_106];
    let illegal = |length: usize| !(32..=65_534).contains(&length) || length % 2 == 1;
    let lengths = around.into_iter().chain(beyond);
    lengths
        .flat_map(|length| {
            let expected = illegal(length).then(|| broken(1, 0, 0));
            let name = format!("{length} bytes");
            let mut of_a = Plan::sheet_a().bytes();
            of_a.resize(length, 0);
            let of_any = (0..length).map(|_| random.word() as u8).collect();
            let langs = common_list;
            [of_a, of_any].map(|sheet| Generated {
                name: name.clone(),
                sheet,
                langs: langs(),
                expected,
            })
        })
        .collect()
}
