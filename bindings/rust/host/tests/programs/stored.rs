//! The sheets and scripts that are stored as files of the test programs in Rattle.

use std::fs;
use std::path::{Path, PathBuf};

/// Where the test programs are, from this package's folder.
const CRATES: &str = "../../../crates";

/// A stored sheet, and the list lent beside it.
pub struct Sheet {
    /// Its file.
    pub file: String,
    /// Its bytes.
    pub bytes: Vec<u8>,
    /// The bytes of the list.
    pub langs: Vec<u8>,
}

/// A stored script.
pub struct Script {
    /// Its file.
    pub file: String,
    /// Its lines.
    pub text: String,
    /// The sheet on which it is played.
    pub sheet: Sheet,
}

/// The stored sheets.
pub fn sheets() -> Vec<Sheet> {
    let names = names("checktest");
    names.chunks(2).map(|pair| sheet("checktest", &pair[0], &pair[1])).collect()
}

/// The stored scripts.
pub fn scripts() -> Vec<Script> {
    let names = names("listentest");
    names.chunks(3).map(|triple| script(&triple[0], &triple[1], &triple[2])).collect()
}

/// Sheet A, which is accepted.
pub fn sheet_a() -> Sheet {
    sheet("listentest", "english.langs", "a.sheet")
}

fn script(langs: &str, sheet_name: &str, name: &str) -> Script {
    let file = file("listentest", name);
    let text = fs::read_to_string(&file).expect("the script can be read");
    Script { file, text, sheet: sheet("listentest", langs, sheet_name) }
}

fn sheet(program: &str, langs: &str, name: &str) -> Sheet {
    let langs = fs::read(file(program, langs)).expect("the list can be read");
    let file = file(program, name);
    let bytes = fs::read(&file).expect("the sheet can be read");
    Sheet { file, bytes, langs }
}

/// The arguments of a test program, which are names of its files.
fn names(program: &str) -> Vec<String> {
    let names = fs::read_to_string(folder(program).join("args")).expect("the names can be read");
    names.lines().map(String::from).collect()
}

fn file(program: &str, name: &str) -> String {
    folder(program).join("data").join(name).display().to_string()
}

/// The folder of a test program.
fn folder(program: &str) -> PathBuf {
    let crates = Path::new(env!("CARGO_MANIFEST_DIR")).join(CRATES);
    crates.canonicalize().expect("the crates are there").join(program)
}
