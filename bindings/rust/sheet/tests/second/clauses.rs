//! Every named clause breaks its rule first, at its place, and its neighbour is accepted.

use std::collections::HashSet;

use sheet::generate::clauses;
use sheet::second::{check, Verdict};

#[test]
fn each_clause_breaks_its_rule_first() {
    for clause in clauses::all() {
        assert_eq!(
            check(&clause.broken.sheet, &clause.broken.langs),
            clause.verdict(),
            "{}",
            clause.name()
        );
    }
}

#[test]
fn each_neighbour_is_accepted() {
    for clause in clauses::all() {
        let verdict = check(&clause.neighbour.sheet, &clause.neighbour.langs);
        assert_eq!(verdict, Verdict::Accepted, "{}", clause.name());
    }
}

#[test]
fn names_differ_and_every_rule_has_one() {
    let clauses = clauses::all();
    let names: HashSet<String> = clauses.iter().map(|clause| clause.name()).collect();
    let rules: HashSet<u8> = clauses.iter().map(|clause| clause.rule).collect();
    assert_eq!(names.len(), clauses.len());
    assert_eq!(rules, (1..=24).chain([33]).collect());
}
