//! The sheets that are kept as files: every broken clause, every neighbour once, and the
//! accepted sheets that look broken; and the lists lent beside them.

use std::collections::HashSet;
use std::path::{Path, PathBuf};
use std::{env, fs, io, process};

use super::clauses::{common_list, Lent};
use super::languages::lists;
use super::{allowed, clauses, Generated};
use crate::second::Verdict;

/// The sheets under their file names, sorted by name, byte by byte.
pub fn sheets() -> Vec<Generated> {
    let mut neighbours = HashSet::new();
    let mut sheets = allowed::sheets();
    for sheet in &mut sheets {
        sheet.name = format!("ok-{}.sheet", hyphenated(&sheet.name));
    }
    for clause in clauses::all().into_iter().filter(|clause| clause.is_stored) {
        let name = format!("r{:02}-{}.sheet", clause.rule, hyphenated(&clause.what));
        let expected = Some(clause.verdict());
        if neighbours.insert(clause.neighbour.clone()) {
            let Lent { sheet, langs } = clause.neighbour;
            let (name, expected) = (format!("ok-near-{name}"), Some(Verdict::Accepted));
            sheets.push(Generated { name, sheet, langs, expected });
        }
        let Lent { sheet, langs } = clause.broken;
        sheets.push(Generated { name, sheet, langs, expected });
    }
    sheets.sort_by(|one, other| one.name.cmp(&other.name));
    sheets
}

/// The lists under their file names. A list has the name of the first sheet that it is lent beside,
/// but for those of many sheets.
pub struct Lists(Vec<(String, Vec<u8>)>);

impl Lists {
    /// The lists of these sheets.
    pub fn of(sheets: &[Generated]) -> Lists {
        let mut lists = Lists(vec![
            ("common.langs".to_string(), common_list()),
            ("empty.langs".to_string(), Vec::new()),
            ("english.langs".to_string(), lists::of_codes(&["eng"])),
            ("iso-639-2.langs".to_string(), lists::REAL.to_vec()),
        ]);
        let is_named = |lists: &Lists, langs: &[u8]| lists.0.iter().any(|(_, list)| list == langs);
        for Generated { name, langs, .. } in sheets {
            if !is_named(&lists, langs) {
                let name = format!("{}.langs", name.trim_end_matches(".sheet"));
                lists.0.push((name, langs.clone()));
            }
        }
        lists.0.retain(|(_, list)| sheets.iter().any(|sheet| sheet.langs == *list));
        lists
    }

    /// The file name of a list.
    pub fn name(&self, langs: &[u8]) -> &str {
        let (name, _) =
            self.0.iter().find(|(_, list)| list == langs).expect("a list of the sheets");
        name
    }

    /// All lists with their file names.
    pub fn files(&self) -> &[(String, Vec<u8>)] {
        &self.0
    }

    /// The arguments of a program that takes pairs: a line for the file of a list, then one for
    /// that of a sheet.
    pub fn arguments(&self, sheets: &[Generated]) -> String {
        let pair = |sheet: &Generated| format!("{}\n{}\n", self.name(&sheet.langs), sheet.name);
        sheets.iter().map(pair).collect()
    }
}

/// The files of a program that takes pairs: the sheets and their lists below `data`, their names in
/// `args`, and what it has to print in `stdout`.
pub fn files(sheets: &[Generated], expected: String) -> Vec<(String, Vec<u8>)> {
    let lists = Lists::of(sheets);
    let sheet = |stored: &Generated| (stored.name.clone(), stored.sheet.clone());
    let data = sheets.iter().map(sheet).chain(lists.files().iter().cloned());
    let mut files: Vec<_> = data.map(|(name, bytes)| (format!("data/{name}"), bytes)).collect();
    files.push(("args".to_string(), lists.arguments(sheets).into_bytes()));
    files.push(("stdout".to_string(), expected.into_bytes()));
    files
}

/// Writes them into the program's folder.
pub fn write(folder: &Path, sheets: &[Generated], expected: String) -> io::Result<()> {
    fs::create_dir_all(folder.join("data"))?;
    files(sheets, expected)
        .into_iter()
        .try_for_each(|(name, bytes)| fs::write(folder.join(name), bytes))
}

/// The folder that a program of this package is given, its only argument; without it the program
/// says its usage and ends.
pub fn given_folder(program: &str) -> PathBuf {
    let arguments: Vec<_> = env::args_os().skip(1).collect();
    let [folder] = arguments.as_slice() else {
        eprintln!("usage: {program} FOLDER");
        process::exit(2);
    };
    folder.into()
}

/// What `checktest` has to print on the sheets.
pub fn expected(sheets: &[Generated]) -> String {
    let line = |Generated { name, expected, .. }: &Generated| {
        format!("{name}: {}\n", expected.expect("every stored sheet has a verdict"))
    };
    sheets.iter().map(line).collect()
}

/// The words of a name, in small letters with hyphens between.
pub(super) fn hyphenated(what: &str) -> String {
    let what = what.to_lowercase().replace(" -", " minus ").replace('\'', "");
    let words = what.split(|letter: char| !letter.is_ascii_alphanumeric());
    words.filter(|word| !word.is_empty()).collect::<Vec<_>>().join("-")
}
