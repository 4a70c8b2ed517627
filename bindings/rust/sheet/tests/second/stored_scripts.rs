//! The stored scripts: every answer to every call is in them, and the files are these scripts.

use std::collections::{BTreeMap, BTreeSet};
use std::path::Path;
use std::{fs, iter};

use sheet::generate::languages::lists::REAL;
use sheet::generate::stored_scripts::{arguments, expected, list_files, scripts, sheet_files};
use sheet::script::{answers, lines, read_answers, Line, Met, Said};
use sheet::second::{check, Verdict};

#[test]
fn names_differ_and_every_sheet_and_list_is_used() {
    let (scripts, sheets) = (scripts(), sheet_files());
    let names: BTreeSet<&str> = scripts.iter().map(|script| script.name.as_str()).collect();
    assert_eq!(names.len(), scripts.len());
    let used: BTreeSet<&str> = scripts.iter().map(|script| script.sheet.as_str()).collect();
    assert_eq!(used, sheets.iter().map(|(name, _)| name.as_str()).collect());
    let lent: BTreeSet<&str> = scripts.iter().map(|script| script.langs).collect();
    assert_eq!(lent, list_files().iter().map(|(name, _)| *name).collect());
}

#[test]
fn sheets_are_accepted_unless_their_names_deny_it() {
    for (name, sheet) in sheet_files() {
        let accepted = !["not-accepted.sheet", "no-bytes.sheet"].contains(&name.as_str());
        assert_eq!(check(&sheet, REAL) == Verdict::Accepted, accepted, "{name}");
    }
}

#[test]
fn every_call_meets_every_answer() {
    let sheets: BTreeMap<String, Vec<u8>> = sheet_files().into_iter().collect();
    let lists: BTreeMap<&str, Vec<u8>> = list_files().into_iter().collect();
    let mut met = Met::default();
    let mut odd_lines = 0;
    for script in scripts() {
        let said = answers(&sheets[&script.sheet], &lists[script.langs], &script.text);
        let said = read_answers(&said);
        let said = said.expect("the answers can be read");
        let read: Vec<Option<Line>> = lines(&script.text).map(Line::read).collect();
        assert_eq!(said.len(), 1 + read.len(), "{}", script.name);
        for (line, said) in iter::once(Some(Line::Open)).chain(read).zip(&said) {
            assert_eq!(line.is_none(), *said == Said::NotUnderstood, "{}", script.name);
            odd_lines += usize::from(line.is_none());
            line.iter().for_each(|line| met.add(line, said));
        }
    }
    assert!(met.is_complete(), "{met}");
    assert!(odd_lines > 40, "{odd_lines} odd lines");
}

#[test]
fn the_files_of_listentest_are_these_scripts() {
    let folder = Path::new(env!("CARGO_MANIFEST_DIR")).join("../../../crates/listentest");
    let read = |name: &str| fs::read(folder.join(name)).expect("the file is there");
    for script in scripts() {
        assert!(
            read(&format!("data/{}", script.name)) == script.text.as_bytes(),
            "{}",
            script.name
        );
    }
    for (name, sheet) in sheet_files() {
        assert!(read(&format!("data/{name}")) == sheet, "{name}");
    }
    for (name, list) in list_files() {
        assert!(read(&format!("data/{name}")) == list, "{name}");
    }
    assert_eq!(String::from_utf8_lossy(&read("args")), arguments());
    assert_eq!(String::from_utf8_lossy(&read("stdout")), expected());
}
