//! The scripts of listener calls that are kept as files, and their sheets.

mod groups;
mod lends;
mod listings;
mod odd_lines;
mod openings;
mod programmes;
/// The sheets of the scripts.
pub mod sheets;
mod states;
mod values;

use std::fmt::Display;

use super::languages::lists::{of_codes, REAL};
use crate::build::bytes;
use crate::script::answers;

/// A script under its file name, and those of its sheet and of the list that the opening is lent.
pub struct StoredScript {
    /// The script's file name.
    pub name: String,
    /// The list's file name.
    pub langs: &'static str,
    /// The sheet's file name.
    pub sheet: String,
    /// The lines of the script.
    pub text: String,
}

/// All scripts, by topic.
pub fn scripts() -> Vec<StoredScript> {
    [
        openings::scripts(),
        lends::scripts(),
        programmes::scripts(),
        groups::scripts(),
        values::scripts(),
        listings::scripts(),
        states::scripts(),
        odd_lines::scripts(),
    ]
    .into_iter()
    .flatten()
    .collect()
}

/// The sheets under their file names.
pub fn sheet_files() -> Vec<(String, Vec<u8>)> {
    let sheets = sheets::sheets().into_iter();
    sheets.map(|(name, sheet)| (sheet_name(name), sheet)).collect()
}

/// The list of most scripts, which has the languages of all their sheets.
const ISO_639_2: &str = "iso-639-2.langs";

/// The lists under their file names.
pub fn list_files() -> Vec<(&'static str, Vec<u8>)> {
    let [eng, fra] = ["eng", "fra"].map(crate::build::language);
    vec![
        (ISO_639_2, REAL.to_vec()),
        ("empty.langs", Vec::new()),
        ("english.langs", of_codes(&["eng"])),
        ("english-and-a-byte.langs", [of_codes(&["eng"]), vec![0]].concat()),
        ("french.langs", of_codes(&["fra"])),
        ("not-rising.langs", bytes(&[fra, eng])),
        ("twice.langs", bytes(&[eng, eng])),
    ]
}

/// What a listener has to print for all scripts in turn.
pub fn expected() -> String {
    let (sheets, lists) = (sheet_files(), list_files());
    let of_script = |script: StoredScript| {
        let sheet = sheets.iter().find(|(name, _)| *name == script.sheet);
        let list = lists.iter().find(|(name, _)| *name == script.langs);
        let ((_, sheet), (_, langs)) = sheet.zip(list).expect("every script has its files");
        format!("script {}\n{}", script.name, answers(sheet, langs, &script.text))
    };
    scripts().into_iter().map(of_script).collect()
}

/// The arguments of `listentest`: a line for each file of a triple, list, sheet and script.
pub fn arguments() -> String {
    let triple = |StoredScript { langs, sheet, name, .. }| format!("{langs}\n{sheet}\n{name}\n");
    scripts().into_iter().map(triple).collect()
}

fn sheet_name(name: &str) -> String {
    format!("{name}.sheet")
}

/// A script on a sheet, from its lines.
fn script<T: AsRef<str>>(sheet: &str, name: &str, lines: &[T]) -> StoredScript {
    StoredScript {
        name: format!("{sheet}-{name}.script"),
        langs: ISO_639_2,
        sheet: sheet_name(sheet),
        text: lines.iter().map(|line| format!("{}\n", line.as_ref())).collect(),
    }
}

/// A script whose lines are each followed by the state and the listing.
fn shown<T: AsRef<str>>(sheet: &str, name: &str, lines: &[T]) -> StoredScript {
    let lines = lines.iter().flat_map(|line| [line.as_ref(), "state", "list"]);
    script(sheet, name, &lines.collect::<Vec<_>>())
}

/// A line for each number, then the state and the listing.
fn for_each<N: Display>(numbers: impl IntoIterator<Item = N>, line: &str) -> Vec<String> {
    let lines = numbers.into_iter().map(|number| line.replace('N', &number.to_string()));
    lines.chain(["state", "list"].map(String::from)).collect()
}
