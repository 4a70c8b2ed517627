//! The sheets that are kept as files for the figures: sheets of many clashes, every clause of
//! rules 18, 20 and 24, and some sheets of which no figure is told.

mod members;
mod ranges;
mod shares;

use super::clauses::{self, common_list, Clause, Lent};
use super::figures::TOLD_RULES;
use super::stored::hyphenated;
use super::{allowed, Generated};
use crate::build::Plan;
use crate::second::figures::lines;

/// How many accepted sheets are kept.
const ACCEPTED: usize = 6;

/// A sheet under the name of what clashes there, for a rule.
type Named = (String, Plan);

/// The sheets under their file names, sorted by name, byte by byte.
pub fn sheets() -> Vec<Generated> {
    let told = [(18, ranges::sheets()), (20, members::sheets()), (24, shares::sheets())];
    let mut sheets: Vec<Generated> = told
        .into_iter()
        .flat_map(|(rule, named)| named.into_iter().map(move |named| of_rule(rule, named)))
        .collect();
    sheets.extend(told_clauses());
    sheets.extend(not_told());
    sheets.sort_by(|one, other| one.name.cmp(&other.name));
    sheets
}

/// What `sheetfigures` has to print on the sheets, each under its name.
pub fn expected(sheets: &[Generated]) -> String {
    let expected =
        |sheet: &Generated| format!("{}:\n{}", sheet.name, lines(&sheet.sheet, &sheet.langs));
    sheets.iter().map(expected).collect()
}

fn of_rule(rule: u8, (what, plan): Named) -> Generated {
    let (name, sheet) = (format!("r{rule}-{what}.sheet"), plan.bytes());
    Generated { name, sheet, langs: common_list(), expected: None }
}

fn of_clause(clause: Clause) -> Generated {
    let name = format!("r{:02}-clause-{}.sheet", clause.rule, hyphenated(&clause.what));
    let expected = Some(clause.verdict());
    let Lent { sheet, langs } = clause.broken;
    Generated { name, sheet, langs, expected }
}

fn told_clauses() -> Vec<Generated> {
    let clauses = clauses::all().into_iter();
    clauses.filter(|clause| TOLD_RULES.contains(&clause.rule)).map(of_clause).collect()
}

/// A small sheet for each other rule, no bytes for rule 1, and accepted sheets.
fn not_told() -> Vec<Generated> {
    let mut others = clauses::all();
    others.retain(|clause| !TOLD_RULES.contains(&clause.rule));
    others.sort_by_key(|clause| (clause.rule, clause.broken.sheet.len()));
    others.dedup_by_key(|clause| clause.rule);
    let mut sheets: Vec<Generated> = others.into_iter().map(of_clause).collect();
    let mut accepted = allowed::sheets();
    accepted.sort_by_key(|sheet| sheet.sheet.len());
    sheets.extend(
        accepted.into_iter().take(ACCEPTED).map(|sheet| Generated {
            name: format!("ok-{}.sheet", hyphenated(&sheet.name)),
            ..sheet
        }),
    );
    sheets
}
