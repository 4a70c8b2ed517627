//! `sheetcheck` on the stored sheets, and on inputs that are longer than any sheet.

use sheet::generate::languages::lists::REAL;
use sheet::second::{self, Verdict};

use crate::folder::Folder;
use crate::input::{self, Input};
use crate::run::{program_in, run};
use crate::stored::{self, Sheet};
use crate::verdicts::Verdicts;

/// Runs `sheetcheck` in a folder with the list, and it must say the second checker's verdict.
fn compare(folder: &Folder, what: &str, (sheet, langs): (&[u8], &[u8]), input: Input) -> Verdict {
    let verdict = second::check(sheet, langs);
    folder.lend(langs);
    let sheetcheck = program_in(folder.path(), "sheetcheck", &[]);
    run(sheetcheck, input).must_say(&format!("{verdict}\n"), what);
    verdict
}

#[test]
fn stored_sheets() {
    let mut met = Verdicts::default();
    let folder = Folder::new("sheetcheck stored");
    for Sheet { file, bytes, langs } in stored::sheets() {
        met.add(compare(&folder, &file, (&bytes, &langs), input::file(&file)));
    }
    let never_met = met.never_met();
    println!("{met}\nsheetcheck: {} sheets, no difference, {never_met} never met", met.sheets());
    assert_eq!(never_met, 0, "acceptance or a rule was never met");
}

#[test]
fn stored_sheets_in_single_bytes() {
    let sheets = stored::sheets();
    let folder = Folder::new("sheetcheck in reads of 1");
    for Sheet { file, bytes, langs } in &sheets {
        let what = format!("{file}, in reads of 1");
        compare(&folder, &what, (bytes, langs), input::pieces(bytes, 1));
    }
    println!("sheetcheck, in reads of 1: {} sheets, no difference", sheets.len());
}

#[test]
fn inputs_longer_than_any_sheet() {
    let starts = [Vec::new(), stored::sheet_a().bytes];
    let folder = Folder::new("sheetcheck long");
    let lengths = [65_537, 1_000_000];
    for length in lengths {
        for mut bytes in starts.clone() {
            let what = format!("{} bytes, then zeros, {length} in all", bytes.len());
            bytes.resize(length, 0);
            compare(&folder, &what, (&bytes, REAL), input::pipe(&bytes));
        }
    }
    println!("sheetcheck: {} long inputs, no difference", starts.len() * lengths.len());
}
