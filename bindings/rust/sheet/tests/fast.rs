//! The fast checker against the plain one: the same verdict on every sheet; and the fast gain of a
//! factor and the fast check of block times against the plain ones.

use std::fs;
use std::path::Path;

use sheet::generate::crowded::CrowdedSheets;
use sheet::generate::factors::around_powers_of_two;
use sheet::generate::frames::{self, Listed};
use sheet::generate::languages::{each, LanguageSheets};
use sheet::generate::{fixed_sheets, hostile, Generated, RandomSheets};
use sheet::second::Verdict;
use sheet::{fast, second};

/// Seeds with 50,000 random sheets each.
const SEEDS: [u64; 3] = [2168, 2076, 65_534];

#[test]
fn the_fast_checker_gives_the_plain_verdict() {
    let random = |seed| RandomSheets::new(seed).take(50_000);
    let sheets = fixed_sheets().into_iter().chain(SEEDS.into_iter().flat_map(random));
    let met = compared(sheets);
    let never = (0..=24).chain([33]).filter(|&rule| met[rule] == 0).count();
    assert_eq!(never, 0, "acceptance, then each rule was met so often: {met:?}");
}

/// Here lists overlap, so the tables over section 6 are used.
#[test]
fn and_on_crowded_sheets() {
    let met = compared(CrowdedSheets::new(14).take(100_000));
    for rule in [0, 5, 6, 9, 11, 12, 14, 19, 21, 22, 33] {
        assert!(met[rule] > 100, "acceptance, then each rule was met so often: {met:?}");
    }
}

#[test]
fn and_on_sheets_of_languages_and_lists() {
    let met = compared(LanguageSheets::new(33).take(60_000));
    for rule in [0, 6, 33] {
        assert!(met[rule] > 1000, "acceptance, then each rule was met so often: {met:?}");
    }
}

#[test]
fn and_for_each_word_and_each_place_in_a_list() {
    let met = compared(each::sheets());
    assert!(met[0] > 1500 && met[6] > 100_000 && met[33] > 4500, "{met:?}");
}

#[test]
fn and_on_hostile_sheets_of_any_size() {
    let sizes = [512, 700, 1024, 2048, 4096];
    let sheets: Vec<Generated> = sizes.into_iter().flat_map(hostile::sheets_of).collect();
    for generated in &sheets {
        assert_eq!(
            Some(fast::check(&generated.sheet, &generated.langs)),
            generated.expected,
            "{}",
            generated.name
        );
    }
    compared(sheets.into_iter());
}

/// How many sheets met acceptance and each rule; the verdicts on all are compared.
fn compared(sheets: impl Iterator<Item = Generated>) -> [usize; 34] {
    let mut met = [0; 34];
    for generated in sheets {
        let Generated { name, sheet, langs, expected } = &generated;
        let verdict = second::check(sheet, langs);
        assert_eq!(expected.unwrap_or(verdict), verdict, "{name}");
        let of_fast = fast::check(sheet, langs);
        assert!(of_fast == verdict, "{name}: {of_fast}, plain {verdict}; {}", keep(&generated));
        met[rule(verdict)] += 1;
    }
    met
}

/// Keeps the sheet and its list as files; says where.
fn keep(generated: &Generated) -> String {
    let folder = Path::new(env!("CARGO_TARGET_TMPDIR"));
    let [sheet, langs] =
        ["sheet", "langs"].map(|kind| folder.join("fast-difference").with_extension(kind));
    fs::write(&sheet, &generated.sheet).expect("the sheet can be written");
    fs::write(&langs, &generated.langs).expect("the list can be written");
    format!("kept as {} and {}", sheet.display(), langs.display())
}

/// The number of the broken rule, 0 for acceptance.
fn rule(verdict: Verdict) -> usize {
    match verdict {
        Verdict::Accepted => 0,
        Verdict::Broken { rule, .. } => usize::from(rule),
    }
}

/// Factors that are all compared, some of them beyond the largest.
const FACTORS: u32 = 11_230_000;

#[test]
fn the_fast_gain_of_a_factor_is_the_plain_one() {
    for factor in (0..=FACTORS).chain(around_powers_of_two()) {
        let [fast, plain] = [fast::factors::gain_of_factor, second::factors::gain_of_factor]
            .map(|gain| gain(factor));
        assert_eq!(fast, plain, "{factor}");
    }
}

/// How many random lists of blocks each seed has.
const LISTS_OF_A_SEED: usize = 200_000;

#[test]
fn the_fast_check_of_block_times_is_the_plain_one() {
    for Listed { what, frame, numbers, .. } in frames::all(LISTS_OF_A_SEED) {
        let [fast, plain] =
            [fast::frames::check, second::frames::check].map(|check| check(frame, &numbers));
        assert_eq!(fast, plain, "{what}: frame {frame}, {numbers:?}");
    }
}
