//! Generated sheets, each with its verdict where the construction settles it.

/// Random accepted sheets.
pub mod accepted;
/// Accepted sheets that a stricter checker would break.
pub mod allowed;
mod beside;
/// Random calls of a listener.
pub mod calls;
/// Broken sheets, one for each clause of each rule, with accepted neighbours.
pub mod clauses;
/// Small random sheets in which many lists overlap.
pub mod crowded;
mod damage;
/// Factors, and lines of them.
pub mod factors;
/// Random sheets of which figures are told.
pub mod figures;
/// Lists of blocks, and frame lengths to them.
pub mod frames;
/// Honest sheets as large as they get.
pub mod honest;
/// Sheets of unusual length, and largest sheets made to be slow to check.
pub mod hostile;
/// Lists of language words, and sheets on which they tell.
pub mod languages;
/// Random numbers from a seed.
pub mod random;
/// Random scripts of listener calls.
pub mod scripts;
/// The sheets that are kept as files.
pub mod stored;
/// The lines of factors that are kept as a file.
pub mod stored_factors;
/// The sheets that are kept as files for the figures.
pub mod stored_figures;
/// The inputs that are kept as files for the block times of a live frame.
pub mod stored_frames;
/// The scripts of listener calls that are kept as files.
pub mod stored_scripts;

use self::clauses::{Clause, Lent};
use self::languages::lend::lend;
use self::languages::lists;
use self::random::Random;
use crate::build::word;
use crate::second::Verdict;

/// A sheet, the list of language words that is lent beside it, and its verdict where it is known
/// by construction.
#[derive(Clone)]
pub struct Generated {
    /// How it came about.
    pub name: String,
    /// Its bytes.
    pub sheet: Vec<u8>,
    /// The bytes of the list.
    pub langs: Vec<u8>,
    /// Its verdict.
    pub expected: Option<Verdict>,
}

/// The sheets of fixed contents: every clause and its neighbour, accepted sheets that look
/// broken, large honest sheets, unusual lengths, and hostile sheets.
pub fn fixed_sheets() -> Vec<Generated> {
    let of_clause = |clause: Clause| {
        let name = clause.name();
        let expected = Some(clause.verdict());
        let Lent { sheet, langs } = clause.neighbour;
        let neighbour = format!("{name} (neighbour)");
        let accepted = Some(Verdict::Accepted);
        let neighbour = Generated { name: neighbour, sheet, langs, expected: accepted };
        let Lent { sheet, langs } = clause.broken;
        [neighbour, Generated { name, sheet, langs, expected }]
    };
    let mut sheets: Vec<Generated> = clauses::all().into_iter().flat_map(of_clause).collect();
    sheets.extend(allowed::sheets());
    sheets.extend(honest::sheets());
    sheets.extend(hostile::lengths());
    sheets.extend(hostile::sheets());
    sheets
}

/// Random sheets without end, from a seed.
pub struct RandomSheets {
    random: Random,
    clauses: Vec<Clause>,
}

impl RandomSheets {
    /// The sheets of a seed.
    pub fn new(seed: u64) -> RandomSheets {
        RandomSheets { random: Random::new(seed), clauses: clauses::all() }
    }

    /// A random accepted sheet of any level.
    pub fn accepted(&mut self) -> Generated {
        let level = word(self.random.below(3));
        let sheet = accepted::plan(&mut self.random, level).bytes();
        let langs = lists::of(lists::held(&sheet));
        let name = format!("accepted at level {level}");
        Generated { name, sheet, langs, expected: Some(Verdict::Accepted) }
    }

    /// A clause beside a random accepted sheet or beside another clause.
    pub fn broken(&mut self) -> Generated {
        loop {
            let [one, other] = [0, 0].map(|_| self.random.below(self.clauses.len()));
            let [one, other] = [&self.clauses[one], &self.clauses[other]];
            let sheet = match self.random.chance(60) {
                true => beside::clause_beside_accepted(&mut self.random, one),
                false => beside::two_clauses(&mut self.random, one, other),
            };
            if let Some(sheet) = sheet {
                return sheet;
            }
        }
    }

    /// The sheet with a list at random.
    fn with_other_list(&mut self, generated: Generated) -> Generated {
        let Generated { name, sheet, expected, .. } = generated;
        let (langs, expected) = lend(&mut self.random, &sheet, expected);
        Generated { name: format!("{name}, with another list"), sheet, langs, expected }
    }

    /// A sheet that may break a limit, a damaged accepted sheet, or random records.
    pub fn damaged(&mut self) -> Generated {
        let level = word(self.random.below(3));
        let random = &mut self.random;
        let sheet = match random.below(10) {
            0 => accepted::plan_near_limits(random, level).bytes(),
            1 => damage::random_records(random),
            2..=5 => damage::damaged(accepted::plan(random, level), random),
            _ => damage::damaged(accepted::small_plan(random, level), random),
        };
        let langs = lists::of(lists::held(&sheet));
        Generated { name: format!("damaged at level {level}"), sheet, langs, expected: None }
    }
}

/// One sheet in eight is accepted, two are broken in a clause, the rest are damaged. Three in four
/// are lent a list of their languages, one a list at random.
impl Iterator for RandomSheets {
    type Item = Generated;

    fn next(&mut self) -> Option<Generated> {
        let generated = match self.random.below(8) {
            0 => self.accepted(),
            1..=2 => self.broken(),
            _ => self.damaged(),
        };
        Some(match self.random.chance(75) {
            true => generated,
            false => self.with_other_list(generated),
        })
    }
}
