//! The sheets on which figures are compared.

use sheet::generate::clauses::common_list;
use sheet::generate::figures::{ClashingSheets, TOLD_RULES};
use sheet::generate::languages::LanguageSheets;
use sheet::generate::{stored, stored_figures, Generated, RandomSheets};

const SEEDS: [u64; 3] = [2168, 2076, 65_534];
/// Of each seed, how many sheets each of the rules refuses of which figures are told.
const REFUSED: usize = 2_500;
/// Of each seed, how many sheets are accepted.
const ACCEPTED: usize = 150;
/// Of each seed, how many sheets break a clause, of whichever rule.
const BROKEN: usize = 250;
/// Of each seed, how many sheets are damaged.
const DAMAGED: usize = 250;
/// Of each seed, how many sheets are made for their lists.
const LANGUAGES: usize = 500;

/// The stored sheets, then random ones from each seed, and inputs that are no sheet at all.
pub fn all() -> Vec<Generated> {
    let mut sheets = stored_figures::sheets();
    sheets.extend(stored::sheets());
    sheets.extend(no_sheets());
    for seed in SEEDS {
        let mut clashing = ClashingSheets::new(seed);
        for rule in TOLD_RULES {
            sheets.extend((0..REFUSED).map(|_| clashing.refused_by(rule)));
        }
        let mut random = RandomSheets::new(seed);
        sheets.extend((0..ACCEPTED).map(|_| random.accepted()));
        sheets.extend((0..BROKEN).map(|_| random.broken()));
        sheets.extend((0..DAMAGED).map(|_| random.damaged()));
        sheets.extend(LanguageSheets::new(seed).take(LANGUAGES));
    }
    sheets
}

/// No bytes, a single one, and more than any sheet has.
fn no_sheets() -> Vec<Generated> {
    let lengths = [0, 1, 31, 65_535, 65_536, 200_000];
    let of_length = |length| Generated {
        name: format!("{length} zeros"),
        sheet: vec![0; length],
        langs: common_list(),
        expected: None,
    };
    lengths.map(of_length).into()
}
