//! The differential test: the proved checker in the linked archive against the second checker,
//! which was written apart from it, on sheets from fixed seeds.
//!
//! It prints how many sheets met each rule, and each class of lists and language words. It fails at
//! the first sheet on which the verdicts differ, which is kept with its list as files, or if a
//! rule, acceptance or a class was never met.

#[path = "shared/verdicts.rs"]
mod verdicts;

use std::fs;
use std::path::Path;
use std::process::ExitCode;

use sheet::generate::crowded::CrowdedSheets;
use sheet::generate::languages::met::Met;
use sheet::generate::languages::{each, LanguageSheets};
use sheet::generate::{fixed_sheets, hostile, Generated, RandomSheets};
use sheet::second;
use verdicts::Verdicts;

const SEEDS: [u64; 3] = [2168, 2076, 65_534];
const SHEETS_OF_A_SEED: usize = 100_000;
const CROWDED_SHEETS: usize = 20_000;
const LANGUAGE_SHEETS: usize = 40_000;
/// Longer sheets aren't looked at for classes.
const LONGEST_CLASSED: usize = 4000;
/// The sizes in words of hostile sheets beside the largest ones.
const SMALL_SIZES: [usize; 2] = [512, 1024];

fn main() -> ExitCode {
    let mut met = Verdicts::default();
    let mut classes = Met::default();
    for generated in all_sheets() {
        let Generated { sheet, langs, .. } = &generated;
        let verdict = second::check(sheet, langs);
        met.add(verdict);
        if sheet.len() <= LONGEST_CLASSED {
            classes.add(sheet, langs, verdict);
        }
        if let Some(difference) = difference(&generated, verdict) {
            println!("{difference}\n    {}", keep(&generated));
            return ExitCode::FAILURE;
        }
    }
    let (sheets, rules, classes_left) = (met.sheets(), met.never_met(), classes.never_met());
    print!("{classes}");
    println!("{met}\ndifferential test: {sheets} sheets, no difference, {rules} rules never met");
    println!("lists and language words, never met: {classes_left:?}");
    match rules + classes_left.len() {
        0 => ExitCode::SUCCESS,
        _ => ExitCode::FAILURE,
    }
}

fn all_sheets() -> impl Iterator<Item = Generated> {
    let fixed = fixed_sheets().into_iter();
    let small = SMALL_SIZES.into_iter().flat_map(hostile::sheets_of);
    let crowded = CrowdedSheets::new(SEEDS[0]).take(CROWDED_SHEETS);
    let languages = LanguageSheets::new(SEEDS[1]).take(LANGUAGE_SHEETS);
    let random = |seed| RandomSheets::new(seed).take(SHEETS_OF_A_SEED);
    let apart = fixed.chain(small).chain(crowded).chain(languages).chain(each::sheets());
    apart.chain(SEEDS.into_iter().flat_map(random))
}

/// What the proved checker and the sheet's construction say, where one of them differs from the
/// second checker.
fn difference(generated: &Generated, second: second::Verdict) -> Option<String> {
    let proved = proved_verdict(&generated.sheet, &generated.langs);
    let expected = generated.expected.unwrap_or(second);
    let name = &generated.name;
    (proved != second || expected != second)
        .then(|| format!("{name}: proved {proved}, second {second}, expected {expected}"))
}

/// The proved checker's verdict, in the second checker's words.
fn proved_verdict(sheet: &[u8], langs: &[u8]) -> second::Verdict {
    match host::check(sheet, langs) {
        host::Verdict::Accepted => second::Verdict::Accepted,
        host::Verdict::Broken { rule, section, record } => {
            second::Verdict::Broken { rule, section, record }
        }
    }
}

/// Keeps the sheet and its list as files; says where.
fn keep(generated: &Generated) -> String {
    let folder = Path::new(env!("CARGO_TARGET_TMPDIR"));
    let [sheet, langs] =
        ["sheet", "langs"].map(|kind| folder.join("difference").with_extension(kind));
    fs::write(&sheet, &generated.sheet).expect("the sheet can be written");
    fs::write(&langs, &generated.langs).expect("the list can be written");
    format!("kept as {} and {}", sheet.display(), langs.display())
}
