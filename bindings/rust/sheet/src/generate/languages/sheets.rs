//! Small random sheets whose language words and list are chosen for each other.

use super::lend::not_rising;
use super::lists::{self, code, AROUND_THE_RANGE, CODES, QAA, QTZ, REAL};
use crate::build::{bytes, overwrite, word};
use crate::generate::clauses::bases::single_objects;
use crate::generate::hostile::set_lists;
use crate::generate::random::Random;
use crate::generate::Generated;
use crate::second::languages::is_three_letters;
use crate::second::view::{content, programme, CONTENT, PROGRAMME};

/// The sheets of a seed, without end.
pub struct LanguageSheets(Random);

impl LanguageSheets {
    /// The sheets of a seed.
    pub fn new(seed: u64) -> LanguageSheets {
        LanguageSheets(Random::new(seed))
    }
}

impl Iterator for LanguageSheets {
    type Item = Generated;

    fn next(&mut self) -> Option<Generated> {
        let random = &mut self.0;
        let list = random_list(random);
        let words = Words { good: good_words(&list), bad: bad_words(random, &list) };
        let mut sheet = bytes(&random_sheet(random, &words));
        if random.chance(2) {
            sheet.truncate(random.below(sheet.len()));
        }
        let mut langs = match random.chance(5) {
            true => not_rising(random, list),
            false => bytes(&list),
        };
        if random.chance(15) {
            langs.push(random.word() as u8);
        }
        let name = "languages and a list".to_string();
        Some(Generated { name, sheet, langs, expected: None })
    }
}

/// Words by what the list makes of them.
struct Words {
    good: Vec<u16>,
    bad: Vec<u16>,
}

/// A list that rises strictly, mostly a short one.
fn random_list(random: &mut Random) -> Vec<u16> {
    match random.below(40) {
        0..=2 => return Vec::new(),
        3..=5 => return lists::words(REAL),
        6 => return (0..=u16::MAX).collect(),
        7 => return lists::three_letters().collect(),
        _ => {}
    }
    let number = random.pick(&[1, 2, 3, 10, 40, 120]);
    let start = random.below(CODES);
    let mut words: Vec<u16> = (0..number)
        .map(|number| match random.below(12) {
            0 => random.word(),
            1 => random.pick(&AROUND_THE_RANGE),
            2 => random.pick(&[QAA, QTZ, 0, 32_767, 32_768, u16::MAX]),
            3..=6 => code((start + number) % CODES),
            _ => code(random.below(CODES)),
        })
        .collect();
    words.sort_unstable();
    words.dedup();
    words
}

/// Listed codes of three letters, and some that need no list.
fn good_words(list: &[u16]) -> Vec<u16> {
    let listed = list.iter().copied().filter(|&word| is_three_letters(word));
    let unlisted = [QAA, QAA + 1, QAA + 25, QAA + 32, QTZ - 32, QTZ - 1, QTZ];
    listed.chain(unlisted).collect()
}

/// Listed words of no letters, and words near those of the list that aren't in it.
fn bad_words(random: &mut Random, list: &[u16]) -> Vec<u16> {
    let is_listed = |word: &u16| list.binary_search(word).is_ok();
    let is_code = |word: &u16| is_three_letters(*word);
    let in_range = |word: &u16| (QAA..=QTZ).contains(word);
    let some: Vec<u16> = (0..8).map(|_| random.pick(&[list, &[5575]].concat())).collect();
    let ends = [list.first(), list.last()].into_iter().flatten().copied();
    let near = some.into_iter().chain(ends).flat_map(|word| {
        let near = [word, word.wrapping_sub(1), word.wrapping_add(1), word.wrapping_add(32)];
        near.into_iter().chain([word.wrapping_sub(32), word ^ 32_768])
    });
    let mut bad: Vec<u16> = near.chain(AROUND_THE_RANGE).chain([0, 32_768, u16::MAX]).collect();
    bad.retain(|word| !is_code(word) || !is_listed(word) && !in_range(word));
    bad
}

/// Some programmes and contents whose label lists are windows of one run; few of their words are
/// bad, in two sheets of five none.
fn random_sheet(random: &mut Random, words: &Words) -> Vec<u16> {
    let level = word(random.below(3));
    let bad = random.pick(&[0, 0, 1, 4, 20]);
    let mut plan = single_objects(level, random.between(1, 5));
    for _ in 0..random.below(5) {
        plan.add_programme(vec![0]);
    }
    plan.stray_entries = random_run(random, words, level, bad > 0);
    let mut sheet = plan.words();
    for (section, labels) in [(PROGRAMME, programme::LABELS), (CONTENT, content::LABELS)] {
        set_languages(random, &mut sheet, section, (words, bad));
        let run = plan.stray_entries.len();
        let most = if level == 0 { run } else { run.min(4) };
        let windows: Vec<(usize, usize)> = (0..records(&sheet, section))
            .map(|_| {
                let count = [0, random.below(most + 1), most][random.below(3)];
                (random.below(run - count + 1), count)
            })
            .collect();
        set_lists(&mut sheet, run, (section, labels), |record| windows[record]);
    }
    sheet
}

fn records(sheet: &[u16], section: u8) -> usize {
    usize::from(sheet[2 * usize::from(section)])
}

/// A programme and a content both have their language first.
fn set_languages(
    random: &mut Random,
    sheet: &mut [u16],
    section: u8,
    (words, bad): (&Words, usize),
) {
    for record in 0..records(sheet, section) {
        let of = if random.chance(bad) { &words.bad } else { &words.good };
        overwrite(sheet, section, record, programme::LANGUAGE, random.pick(of));
    }
}

/// Different good words in any order, and perhaps a bad one, mostly at an end or in the middle.
fn random_run(random: &mut Random, words: &Words, level: u16, with_bad: bool) -> Vec<u16> {
    let lengths: &[usize] = if level == 0 { &[2, 9, 20, 60, 130] } else { &[1, 2, 4] };
    let mut run = words.good.clone();
    run.sort_unstable();
    run.dedup();
    random.shuffle(&mut run);
    run.truncate(random.pick(lengths));
    if with_bad && random.chance(60) {
        let last = run.len() - 1;
        let places = [0, last / 2, last, random.below(run.len())];
        run[random.pick(&places)] = random.pick(&words.bad);
    }
    run
}
