//! The stored sheets: enough of them, most of them small, each with its verdict.

use std::collections::HashSet;
use std::fs;
use std::path::Path;

use sheet::generate::stored::{self, Lists};
use sheet::second::{check, Verdict};

#[test]
fn stored_sheets_get_their_verdicts() {
    for stored in stored::sheets() {
        assert_eq!(Some(check(&stored.sheet, &stored.langs)), stored.expected, "{}", stored.name);
    }
}

#[test]
fn names_differ_and_tell_accepted_from_broken() {
    let sheets = stored::sheets();
    let names: HashSet<&str> = sheets.iter().map(|stored| stored.name.as_str()).collect();
    assert_eq!(names.len(), sheets.len());
    for stored in &sheets {
        let accepted = stored.expected == Some(Verdict::Accepted);
        assert_eq!(stored.name.starts_with("ok-"), accepted, "{}", stored.name);
    }
}

#[test]
fn most_are_small() {
    let sheets = stored::sheets();
    let small = sheets.iter().filter(|stored| stored.sheet.len() < 400).count();
    assert!(sheets.len() >= 80, "{} sheets", sheets.len());
    assert!(2 * small > sheets.len(), "{small} of {} are small", sheets.len());
}

#[test]
fn the_lists_are_few_and_two_are_long() {
    let sheets = stored::sheets();
    let lists = Lists::of(&sheets);
    let bytes = |least: usize| lists.files().iter().filter(|(_, list)| list.len() >= least).count();
    assert!(bytes(0) <= 80, "{} lists", bytes(0));
    assert_eq!([bytes(2000), bytes(131_000)], [2, 2]);
    let names: HashSet<&str> = lists.files().iter().map(|(name, _)| name.as_str()).collect();
    assert_eq!(names.len(), lists.files().len());
}

/// The stored files of a program are those of these sheets.
pub fn assert_stored(program: &str, files: Vec<(String, Vec<u8>)>) {
    let folder = Path::new(env!("CARGO_MANIFEST_DIR")).join("../../../crates").join(program);
    for (name, bytes) in files {
        assert!(fs::read(folder.join(&name)).expect("the file is there") == bytes, "{name}");
    }
}

#[test]
fn the_files_of_checktest_are_these_sheets() {
    let sheets = stored::sheets();
    assert_stored("checktest", stored::files(&sheets, stored::expected(&sheets)));
}
