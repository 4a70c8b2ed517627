//! Clauses of rule 33, and those of rule 6 that the list lent beside a sheet decides.

use super::{Clause, Lent};
use crate::build::{bytes, language, word, Plan};
use crate::generate::hostile::with_lists;
use crate::generate::languages::lists::{self, of_codes, AROUND_THE_RANGE, QAA, QTZ};
use crate::generate::languages::standings::{local_a, Standing, STANDINGS};
use crate::second::view::{content, programme, CONTENT, PROGRAMME};

/// Clauses of rules 6 and 33.
pub fn clauses() -> Vec<Clause> {
    [not_rising(), before_others(), words(), long_labels(), in_one_run()]
        .into_iter()
        .flatten()
        .collect()
}

/// A change to the list, to the sheet, or to both.
fn clause(
    (rule, what): (u8, String),
    place: (u8, u16),
    [neighbour, broken]: [(Vec<u8>, Vec<u8>); 2],
) -> Clause {
    let [neighbour, broken] = [neighbour, broken].map(|(sheet, langs)| Lent { sheet, langs });
    Clause { rule, what, place, neighbour, broken, combinable: None, is_stored: true }
}

/// A beside lists that don't rise strictly.
fn not_rising() -> Vec<Clause> {
    let eng = language("eng");
    let rising = [eng - 256, eng, eng + 1, 32_767, 32_768, 65_535];
    let beside_a = |what: &str, langs: Vec<u8>| {
        let lent = [bytes(&rising), langs].map(|langs| (Plan::sheet_a().bytes(), langs));
        clause((33, what.to_string()), (0, 0), lent)
    };
    let of = |what, words: &[u16]| beside_a(what, bytes(words));
    let with = |words: &[u16]| bytes(&[&rising[..], words].concat());
    vec![
        of("one word twice", &[eng, eng]),
        of("two words in falling order", &[eng, eng - 1]),
        of("equal words at the front", &[eng - 256, eng - 256, eng]),
        of("equal words in the middle", &[eng - 256, eng, eng, eng + 1]),
        of("a fall at the front", &[eng, eng - 256, eng + 1]),
        of("a fall in the middle", &[eng - 256, eng + 1, eng, 65_535]),
        of("high bytes equal, a low one falls", &[eng, eng + 1, eng - 1]),
        of("low bytes rise, a high one falls", &[eng - 256, eng, eng - 255]),
        of("all words falling", &[65_535, 32_768, 32_767, eng, 0]),
        of("a fall from above 32767", &[eng, 32_768, 32_767]),
        beside_a("equal words at the last place", with(&[65_535])),
        beside_a("a fall at the last place", with(&[65_534])),
        beside_a("a last word 0", with(&[0])),
        beside_a("a fall, then an odd byte", lists::with_odd_byte(with(&[0]), 255)),
        beside_a("all words and one more", [lists::all_words(), vec![255, 255]].concat()),
    ]
}

/// Rule 33 on sheets that break other rules, early and late ones.
fn before_others() -> Vec<Clause> {
    let rising = of_codes(&["eng", "fra"]);
    let falling = bytes(&["fra", "eng"].map(language));
    let a = Plan::sheet_a().bytes();
    let without = |length: usize| a[..length].to_vec();
    let changed = |change: fn(&mut Plan)| {
        let mut plan = Plan::sheet_a();
        change(&mut plan);
        plan.bytes()
    };
    let sheets = [
        ("1, no bytes", Vec::new()),
        ("1, an odd byte", without(103)),
        ("2", changed(|plan| plan.level = 3)),
        ("3", without(102)),
        ("6, a language", changed(|plan| plan.contents[0].language = language("xqx"))),
        ("6, a loudness", changed(|plan| plan.programmes[0].loudness = 0)),
        ("14", changed(|plan| plan.tracks[0].ordinal = 1)),
    ];
    let before = |(rule, sheet): (&str, Vec<u8>)| {
        let lent = [(a.clone(), rising.clone()), (sheet, falling.clone())];
        clause((33, format!("before rule {rule}")), (0, 0), lent)
    };
    sheets.into_iter().map(before).collect()
}

/// What, the list, a good word and a bad one.
type Change = (&'static str, Vec<u8>, u16, u16);

fn changes() -> Vec<Change> {
    let [dut, eng, enh, fra] = ["dut", "eng", "enh", "fra"].map(language);
    let [no_letter_after_qa, no_letter_after_qt, qua, paz, pzz, raa] = AROUND_THE_RANGE;
    let three = || of_codes(&["deu", "eng", "fra"]);
    let with = |word| lists::of([eng, word]);
    let above_15_bits = eng + 32_768;
    vec![
        ("between two of the list", three(), eng, enh),
        ("between the first two of the list", three(), eng, dut),
        ("below the first of the list", three(), language("deu"), language("det")),
        ("above the last of the list", three(), fra, fra + 1),
        ("beside the only one of the list", of_codes(&["eng"]), eng, eng - 1),
        ("beside an empty list", Vec::new(), QTZ, eng),
        ("beside a list of an odd byte", vec![21], QAA, eng),
        ("a word cut to an odd byte", vec![0, 1, 21], QAA, eng),
        ("qua", of_codes(&["eng"]), QTZ, qua),
        ("paz", of_codes(&["eng"]), QAA, paz),
        ("pzz", of_codes(&["eng"]), QAA, pzz),
        ("raa", of_codes(&["eng"]), QTZ, raa),
        ("qa and no letter, listed", with(no_letter_after_qa), QAA, no_letter_after_qa),
        ("qt and no letter, listed", with(no_letter_after_qt), QTZ, no_letter_after_qt),
        ("second letter 0, listed", with(5127), eng, 5127),
        ("third letter 27, listed", with(27_483), eng, 27_483),
        ("above 15 bits, listed", with(above_15_bits), eng, above_15_bits),
        ("0, listed", with(0), eng, 0),
    ]
}

/// Each word at each place where a language stands. Words around qaa and qtz are stored at all
/// places, the others at one each.
fn words() -> Vec<Clause> {
    let mut clauses = Vec::new();
    for (number, (what, langs, good, bad)) in changes().into_iter().enumerate() {
        for (place, standing) in STANDINGS.into_iter().enumerate() {
            let lent = [good, bad].map(|word| {
                let mut plan = local_a();
                standing.put(&mut plan, word);
                (plan.bytes(), langs.clone())
            });
            let name = format!("{} {what}", standing.name());
            let is_stored = AROUND_THE_RANGE.contains(&bad) || number % STANDINGS.len() == place;
            let clause = clause((6, name), (standing.section(), 0), lent);
            clauses.push(Clause { is_stored, ..clause });
        }
    }
    clauses
}

/// Long label lists at level 0, all listed but one.
fn long_labels() -> Vec<Clause> {
    let lists = [Standing::ProgrammeLabel, Standing::ContentLabel];
    let lengths = [17, 49];
    let places = [("first", 0), ("middle", 1), ("last", 2)];
    let mut clauses = Vec::new();
    for standing in lists {
        for length in lengths {
            for (place, half) in places {
                let bad = half * (length - 1) / 2;
                let name = format!("{place} of {length} {}s", standing.name());
                clauses.push(long_labels_clause(name, standing, length, bad));
            }
        }
    }
    clauses
}

fn long_labels_clause(name: String, standing: Standing, length: usize, bad: usize) -> Clause {
    let labels: Vec<u16> = lists::three_letters().step_by(131).take(length).collect();
    let mut plan = local_a();
    plan.level = 0;
    match standing.section() {
        PROGRAMME => plan.programmes[0].labels = labels.clone(),
        _ => plan.contents[0].labels = labels.clone(),
    }
    let others = labels.iter().copied().filter(|&label| label != labels[bad]);
    let all_but_one = lists::of(others);
    let lent = [lists::of(labels.iter().copied()), all_but_one];
    let lent = lent.map(|langs| (plan.bytes(), langs));
    clause((6, name), (standing.section(), 0), lent)
}

/// Records whose label lists start further on in one run, of which only the last one's holds the
/// bad entry: the lists have more entries together than section 6.
fn in_one_run() -> Vec<Clause> {
    let (records, length) = (9, 22);
    let run: Vec<u16> = lists::three_letters().step_by(97).take(records + length - 1).collect();
    let mut programmes = local_a();
    programmes.level = 0;
    programmes.stray_entries = run.clone();
    let mut contents = programmes.clone();
    for _ in 1..records {
        programmes.add_programme(vec![0]);
        let object = contents.add_object(0);
        contents.include(object);
    }
    let clause_of = |what: &str, plan: &Plan, (section, field)| {
        let sheet = bytes(&with_lists(plan, (section, field), |record| (record, length)));
        let listed = || run.iter().copied().chain([language("eng")]);
        let but_last = listed().filter(|label| Some(label) != run.last());
        let lent = [lists::of(listed()), lists::of(but_last)].map(|list| (sheet.clone(), list));
        clause((6, what.to_string()), (section, word(records - 1)), lent)
    };
    vec![
        clause_of("programme labels in one run", &programmes, (PROGRAMME, programme::LABELS)),
        clause_of("content labels in one run", &contents, (CONTENT, content::LABELS)),
    ]
}
