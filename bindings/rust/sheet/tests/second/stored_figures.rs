//! The stored sheets of which figures are told: enough of them, small, each under its rule.

use std::collections::HashSet;

use sheet::generate::figures::met::Met;
use sheet::generate::{stored, stored_figures};
use sheet::second::{check, Verdict};

use super::stored::assert_stored;

#[test]
fn names_differ_and_tell_the_rule() {
    let sheets = stored_figures::sheets();
    let names: HashSet<&str> = sheets.iter().map(|stored| stored.name.as_str()).collect();
    assert_eq!(names.len(), sheets.len());
    for stored in &sheets {
        let verdict = check(&stored.sheet, &stored.langs);
        let start = match verdict {
            Verdict::Accepted => String::from("ok-"),
            Verdict::Broken { rule, .. } => format!("r{rule:02}-"),
        };
        assert!(stored.name.starts_with(&start), "{}: {verdict}", stored.name);
        assert!(stored.expected.is_none_or(|expected| expected == verdict), "{}", stored.name);
    }
}

#[test]
fn there_are_enough_and_they_are_small() {
    let sheets = stored_figures::sheets();
    let small = sheets.iter().filter(|stored| stored.sheet.len() < 400).count();
    let largest = sheets.iter().map(|stored| stored.sheet.len()).max();
    assert!((120..=200).contains(&sheets.len()), "{} sheets", sheets.len());
    assert!(2 * small > sheets.len(), "{small} of {} are small", sheets.len());
    assert!(largest < Some(2000), "{largest:?} bytes");
}

#[test]
fn every_class_is_met() {
    let mut met = Met::default();
    stored_figures::sheets().iter().for_each(|stored| met.add(&stored.sheet, &stored.langs));
    assert_eq!(met.never_met(), [""; 0]);
}

#[test]
fn the_files_of_figurestest_are_these_sheets() {
    let sheets = stored_figures::sheets();
    assert_stored("figurestest", stored::files(&sheets, stored_figures::expected(&sheets)));
}
