//! Every clause of every rule by name: a sheet that breaks it and an accepted neighbour.

/// Small accepted sheets that clauses start from.
pub(super) mod bases;
mod groups;
mod header;
mod indices;
mod langs;
mod limits;
mod names;
mod objects;
mod sets;
mod values;
mod words;

use super::languages::lists;
use crate::build::{self, Plan};
use crate::second::Verdict;

/// A sheet, and the list of language words that is lent beside it.
#[derive(Clone, PartialEq, Eq, Hash)]
pub struct Lent {
    /// The bytes of the sheet.
    pub sheet: Vec<u8>,
    /// The bytes of the list.
    pub langs: Vec<u8>,
}

/// A clause of a rule, broken by a small change to an accepted sheet or to the list lent beside it.
pub struct Clause {
    /// The rule that the change breaks first.
    pub rule: u8,
    /// What breaks it, in a few words.
    pub what: String,
    /// Section and record of the place.
    pub place: (u8, u16),
    /// The accepted sheet and its list before the change.
    pub neighbour: Lent,
    /// Both after the change.
    pub broken: Lent,
    /// The plan of the broken sheet, where the clause stays broken beside other records.
    pub combinable: Option<Plan>,
    /// Whether both are kept as files.
    pub is_stored: bool,
}

impl Clause {
    /// The name: rule and what breaks it.
    pub fn name(&self) -> String {
        format!("{} {}", self.rule, self.what)
    }

    /// The verdict on the broken sheet.
    pub fn verdict(&self) -> Verdict {
        Verdict::Broken { rule: self.rule, section: self.place.0, record: self.place.1 }
    }

    fn of_bytes(
        (rule, what): (u8, &str),
        neighbour: Vec<u8>,
        breach: impl FnOnce(&mut Vec<u8>),
    ) -> Clause {
        let mut broken = neighbour.clone();
        breach(&mut broken);
        let [neighbour, broken] =
            [neighbour, broken].map(|sheet| Lent { sheet, langs: common_list() });
        Clause {
            rule,
            what: what.to_string(),
            place: (0, 0),
            neighbour,
            broken,
            combinable: None,
            is_stored: true,
        }
    }

    /// A change to words of the sheet.
    fn of_words(
        name: (u8, &str),
        place: (u8, u16),
        neighbour: Vec<u16>,
        breach: impl FnOnce(&mut Vec<u16>),
    ) -> Clause {
        let mut broken = neighbour.clone();
        breach(&mut broken);
        let to_broken = |sheet: &mut Vec<u8>| *sheet = build::bytes(&broken);
        Clause { place, ..Clause::of_bytes(name, build::bytes(&neighbour), to_broken) }
    }

    /// A change to a plan that breaks the rule beside any other records too.
    fn of_plan(
        name: (u8, &str),
        place: (u8, u16),
        neighbour: Plan,
        breach: impl FnOnce(&mut Plan),
    ) -> Clause {
        let mut broken = neighbour.clone();
        breach(&mut broken);
        Clause {
            combinable: Some(broken.clone()),
            ..Clause::of_plans(name, place, neighbour, broken)
        }
    }

    /// Two plans, on both sides of a limit.
    fn of_plans(name: (u8, &str), place: (u8, u16), neighbour: Plan, broken: Plan) -> Clause {
        let to_broken = |words: &mut Vec<u16>| *words = broken.words();
        Clause::of_words(name, place, neighbour.words(), to_broken)
    }
}

/// The list lent beside every sheet whose clause isn't about languages: those of the sheets, and
/// words of no letters that some of them have.
pub fn common_list() -> Vec<u8> {
    let codes = ["aaa", "deu", "eng", "fra", "nld", "zzz"].map(build::language);
    let labels = codes[0]..codes[0] + 10;
    let no_letters = [33, 1025, 1056, 5127, 27_483, 27_514, 28_506, 38_343, 65_535];
    lists::of(codes.into_iter().chain(labels).chain(no_letters))
}

/// All clauses, by rising rule.
pub fn all() -> Vec<Clause> {
    let mut clauses = [
        header::clauses(),
        indices::clauses(),
        langs::clauses(),
        words::clauses(),
        limits::clauses(),
        names::clauses(),
        objects::clauses(),
        values::clauses(),
        groups::clauses(),
        sets::clauses(),
    ]
    .into_iter()
    .flatten()
    .collect::<Vec<_>>();
    clauses.sort_by_key(|clause| clause.rule);
    clauses
}
