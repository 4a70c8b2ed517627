//! Which classes of lists and language words sheets met, and how often.

use std::collections::BTreeMap;
use std::fmt;

use super::lists::{self, AROUND_THE_RANGE, QAA, QTZ, REAL};
use super::standings::{words, Standing, Words, STANDINGS};
use crate::second::languages::is_three_letters;
use crate::second::view::{Place, Sheet, REFERENCE};
use crate::second::{check, Verdict};

/// How many sheets met each class; those that have to be met stand at 0 from the start.
pub struct Met(BTreeMap<String, usize>);

impl Default for Met {
    fn default() -> Met {
        let all = [of_lists(), of_refused_lists(), of_words(), of_labels(), of_shared_entries()];
        Met(all.into_iter().flatten().map(|class| (class, 0)).collect())
    }
}

impl Met {
    /// Adds a sheet, the list lent beside it and the verdict of the second checker.
    pub fn add(&mut self, sheet: &[u8], langs: &[u8], verdict: Verdict) {
        let list = List::new(langs);
        let mut classes = Vec::new();
        match verdict {
            Verdict::Broken { rule: 33, .. } => classes.extend(list.refused(sheet)),
            Verdict::Broken { rule: 1..=5, .. } => {}
            _ => {
                classes.extend(list.shapes().map(|shape| of_list(shape, verdict)));
                let sheet = Sheet::new(sheet, langs);
                let records: Vec<Words> = words(sheet).collect();
                records.iter().for_each(|of_record| {
                    list.add_words(&mut classes, of_record, verdict);
                    list.add_labels(&mut classes, of_record, verdict);
                });
                list.add_shared_entries(&mut classes, sheet, &records, verdict);
            }
        }
        classes.sort_unstable();
        classes.dedup();
        classes.into_iter().for_each(|class| *self.0.entry(class).or_default() += 1);
    }

    /// The classes that no sheet met.
    pub fn never_met(&self) -> Vec<&str> {
        let never = self.0.iter().filter(|(_, &number)| number == 0);
        never.map(|(class, _)| class.as_str()).collect()
    }
}

/// A row for each class.
impl fmt::Display for Met {
    fn fmt(&self, formatter: &mut fmt::Formatter) -> fmt::Result {
        self.0.iter().try_for_each(|(class, number)| writeln!(formatter, "{number:7}  {class}"))
    }
}

/// A list, with its words read.
struct List<'a> {
    bytes: &'a [u8],
    words: Vec<u16>,
}

const SHAPES: [&str; 9] = [
    "empty",
    "of a single byte",
    "of one word",
    "of ISO 639-2",
    "of all words",
    "with an odd last byte",
    "with an odd last byte that would fall",
    "with words above 32767",
    "with words of no letters",
];

const REFUSED_SHAPES: [&str; 6] = [
    "with equal neighbours",
    "that falls",
    "that falls at the last place only",
    "that falls at the first place only",
    "that doesn't rise, with an odd last byte",
    "of more than all words",
];

impl List<'_> {
    fn new(bytes: &[u8]) -> List<'_> {
        List { bytes, words: lists::words(bytes) }
    }

    fn has(&self, word: u16) -> bool {
        self.words.binary_search(&word).is_ok()
    }

    /// What a list that rises is like.
    fn shapes(&self) -> impl Iterator<Item = &'static str> {
        let List { bytes, words } = self;
        let odd = bytes.last().filter(|_| bytes.len() % 2 == 1);
        let high = words.last().map(|last| (last / 256) as u8);
        let is = [
            bytes.is_empty(),
            bytes.len() == 1,
            words.len() == 1,
            bytes.starts_with(REAL) && bytes.len() <= REAL.len() + 1,
            words.len() == 65_536,
            odd.is_some(),
            odd < high.as_ref() && odd.is_some(),
            words.last() > Some(&32_767),
            words.iter().any(|&word| !is_three_letters(word)),
        ];
        SHAPES.into_iter().zip(is).filter(|(_, is)| *is).map(|(shape, _)| shape)
    }

    /// What a list that doesn't rise is like, and what the sheet breaks beside one that does.
    fn refused(&self, sheet: &[u8]) -> Vec<String> {
        let List { bytes, words } = self;
        let falls: Vec<usize> =
            (1..words.len()).filter(|&place| words[place - 1] > words[place]).collect();
        let equal = (1..words.len()).any(|place| words[place - 1] == words[place]);
        let is = [
            equal,
            !falls.is_empty(),
            !equal && words.len() > 2 && falls == [words.len() - 1],
            !equal && words.len() > 2 && falls == [1],
            bytes.len() % 2 == 1,
            words.len() > 65_536,
        ];
        let shapes = REFUSED_SHAPES.into_iter().zip(is).filter(|(_, is)| *is);
        let shapes = shapes.map(|(shape, _)| of_refused_list(shape));
        let rising = lists::of(words.iter().copied());
        shapes.chain([instead_of(check(sheet, &rising))]).collect()
    }

    /// The classes of a word: what it is to the list.
    fn relations(&self, word: u16) -> Vec<&'static str> {
        let listed = self.has(word);
        let [below, above] = [self.words.first() > Some(&word), self.words.last() < Some(&word)];
        let is_good = is_good(self, word);
        let around = AROUND_THE_RANGE.iter().position(|&near| near == word);
        let unlisted = !listed && !is_good && is_three_letters(word) && !self.words.is_empty();
        let is = [
            (GOOD[0], is_good && self.words.first() == Some(&word)),
            (GOOD[1], is_good && self.words.last() == Some(&word)),
            (GOOD[2], is_good && listed && (QAA..=QTZ).contains(&word)),
            (GOOD[3], !listed && word == QAA),
            (GOOD[4], !listed && word == QTZ),
            (GOOD[5], !listed && (QAA + 1..QTZ).contains(&word) && is_good),
            (BAD[0], listed && !is_good),
            (BAD[1], unlisted && !below && !above),
            (BAD[2], unlisted && below),
            (BAD[3], unlisted && above),
            (BAD[4], !is_good && self.words.is_empty()),
        ];
        let relations = is.into_iter().filter(|(_, is)| *is).map(|(relation, _)| relation);
        let around = around.map(|near| match listed {
            true => LISTED_AROUND[near],
            false => UNLISTED_AROUND[near],
        });
        relations.chain(around).collect()
    }

    /// A bad word counts where its record is the place of rule 6, a good one where rule 6 is kept.
    fn add_words(&self, classes: &mut Vec<String>, of_record: &Words, verdict: Verdict) {
        let labels = of_record.labels.iter().map(|&label| (of_record.of_labels, label));
        for (standing, word) in labels.chain([of_record.language]) {
            let counts = match is_good(self, word) {
                true => !matches!(verdict, Verdict::Broken { rule: 6, .. }),
                false => verdict == broken_at(of_record.place),
            };
            if counts {
                let relations = self.relations(word).into_iter();
                classes.extend(relations.map(|relation| of_word(standing, relation)));
            }
        }
    }

    /// Label lists with more entries together than section 6, of which one is bad, or none.
    fn add_shared_entries(
        &self,
        classes: &mut Vec<String>,
        sheet: Sheet,
        records: &[Words],
        verdict: Verdict,
    ) {
        for standing in LABELS {
            let of_section = || records.iter().filter(|record| record.of_labels == standing);
            let entries: usize = of_section().map(|record| record.labels.len()).sum();
            let has_bad = |record: &&Words| record.labels.iter().any(|&word| !is_good(self, word));
            let bad = of_section().filter(has_bad).map(|record| broken_at(record.place)).next();
            if entries > sheet.count(REFERENCE) && bad.unwrap_or(Verdict::Accepted) == verdict {
                classes.push(of_shared(standing, verdict));
            }
        }
    }

    /// The place of the only bad word of a long label list.
    fn add_labels(&self, classes: &mut Vec<String>, of_record: &Words, verdict: Verdict) {
        let labels = &of_record.labels;
        let mut bad = (0..labels.len()).filter(|&place| !is_good(self, labels[place]));
        let (Some(place), None) = (bad.next(), bad.next()) else { return };
        if verdict != broken_at(of_record.place) || !is_good(self, of_record.language.1) {
            return;
        }
        let at = match place {
            0 => "first",
            _ if place == labels.len() - 1 => "last",
            _ => "middle",
        };
        for length in LONG.into_iter().filter(|&length| labels.len() > length) {
            classes.push(of_label(of_record.of_labels, length, at));
        }
    }
}

const GOOD: [&str; 6] = [
    "first of the list",
    "last of the list",
    "listed and from qaa to qtz",
    "qaa, not listed",
    "qtz, not listed",
    "between qaa and qtz, not listed",
];

const BAD: [&str; 5] = [
    "no letters, listed",
    "between two of the list",
    "below the first of the list",
    "above the last of the list",
    "beside an empty list",
];

/// In the order of `AROUND_THE_RANGE`.
const LISTED_AROUND: [&str; 6] = [
    "qa and no letter, listed",
    "qt and no letter, listed",
    "qua, listed",
    "paz, listed",
    "pzz, listed",
    "raa, listed",
];

const UNLISTED_AROUND: [&str; 6] = [
    "qa and no letter",
    "qt and no letter",
    "qua, not listed",
    "paz, not listed",
    "pzz, not listed",
    "raa, not listed",
];

const LABELS: [Standing; 2] = [Standing::ProgrammeLabel, Standing::ContentLabel];
/// A label list longer than one of these is long.
const LONG: [usize; 2] = [16, 48];
const PLACES: [&str; 3] = ["first", "middle", "last"];

fn is_good(list: &List, word: u16) -> bool {
    is_three_letters(word) && (list.has(word) || (QAA..=QTZ).contains(&word))
}

fn broken_at(Place { section, record }: Place) -> Verdict {
    Verdict::Broken { rule: 6, section, record }
}

fn of_list(shape: &str, verdict: Verdict) -> String {
    let outcome = match verdict {
        Verdict::Accepted => "accepted",
        Verdict::Broken { rule: 6, .. } => "rule 6",
        Verdict::Broken { .. } => "a later rule",
    };
    format!("list {shape}: {outcome}")
}

fn of_refused_list(shape: &str) -> String {
    format!("list {shape}: rule 33")
}

fn instead_of(verdict: Verdict) -> String {
    String::from(match verdict {
        Verdict::Accepted => "rule 33 instead of acceptance",
        Verdict::Broken { rule: 1, .. } => "rule 33 instead of rule 1",
        Verdict::Broken { rule: 6, .. } => "rule 33 instead of rule 6",
        Verdict::Broken { .. } => "rule 33 instead of another rule",
    })
}

fn of_word(standing: Standing, relation: &str) -> String {
    format!("{}: {relation}", standing.name())
}

fn of_shared(standing: Standing, verdict: Verdict) -> String {
    let outcome = if verdict == Verdict::Accepted { "accepted" } else { "one bad" };
    format!("{}s with more entries than section 6: {outcome}", standing.name())
}

fn of_label(standing: Standing, length: usize, at: &str) -> String {
    format!("more than {length} {}s: the {at} one bad", standing.name())
}

fn of_lists() -> Vec<String> {
    let broken = Verdict::Broken { rule: 6, section: 1, record: 0 };
    let outcomes = [Verdict::Accepted, broken];
    let each = |shape| outcomes.map(|verdict| of_list(shape, verdict));
    SHAPES.into_iter().flat_map(each).collect()
}

fn of_refused_lists() -> Vec<String> {
    let verdicts = [1, 6, 14].map(|rule| Verdict::Broken { rule, section: 0, record: 0 });
    let instead = verdicts.into_iter().chain([Verdict::Accepted]).map(instead_of);
    REFUSED_SHAPES.into_iter().map(of_refused_list).chain(instead).collect()
}

fn of_words() -> Vec<String> {
    let relations = || {
        let of_list = GOOD.into_iter().chain(BAD);
        of_list.chain(LISTED_AROUND).chain(UNLISTED_AROUND)
    };
    STANDINGS.into_iter().flat_map(|s| relations().map(move |r| of_word(s, r))).collect()
}

fn of_labels() -> Vec<String> {
    let mut classes = Vec::new();
    for standing in LABELS {
        for length in LONG {
            classes.extend(PLACES.map(|at| of_label(standing, length, at)));
        }
    }
    classes
}

fn of_shared_entries() -> Vec<String> {
    let broken = Verdict::Broken { rule: 6, section: 1, record: 0 };
    let each = |standing| [Verdict::Accepted, broken].map(|verdict| of_shared(standing, verdict));
    LABELS.into_iter().flat_map(each).collect()
}
