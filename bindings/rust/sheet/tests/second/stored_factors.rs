//! The stored lines of factors: enough of them, all answers in them, and the files are these lines.

use std::collections::BTreeSet;

use sheet::generate::stored_factors::{expected, input};

use super::stored::assert_stored;

#[test]
fn answers_of_all_kinds_are_met() {
    let expected = expected();
    let said: Vec<&str> = expected.lines().collect();
    assert!((400..=1000).contains(&said.len()), "{} lines", said.len());
    let met: BTreeSet<&str> = said.iter().copied().collect();
    for tenths in (-600..=210).step_by(10).chain(-600..=-593).chain(-7..=8).chain(203..=210) {
        assert!(met.contains(&*tenths.to_string()), "{tenths}");
    }
    for answer in ["silence", "refused 34", "?"] {
        assert!(said.iter().filter(|said| **said == answer).count() >= 5, "{answer}");
    }
}

#[test]
fn the_files_of_gaintenths_are_these_lines() {
    let files = [("stdin", input()), ("stdout", expected().into_bytes())];
    assert_stored("gaintenths", files.map(|(name, bytes)| (name.to_string(), bytes)).into());
}
