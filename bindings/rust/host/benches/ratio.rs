//! The benchmark: time per sheet of the proved checker, of the second one written for speed, and
//! of the plain second one, and their ratios; and how the times grow with the sheet.
//!
//!     cargo bench --bench ratio                       both tables, all sheets
//!     cargo bench --bench ratio -- honest             the honest sheets
//!     cargo bench --bench ratio -- list               the sheets with an empty list or one of all words
//!     cargo bench --bench ratio -- hostile            the hostile sheets, or those with any other text in their names
//!     cargo bench --bench ratio -- growth             the growth of every family
//!     cargo bench --bench ratio -- growth honest      the growth of the families with this text in their names
//!     cargo bench --bench ratio -- factors            the gains of plain factors
//!     cargo bench --bench ratio -- frames             the block times of live frames
//!     cargo bench --bench ratio -- write FOLDER       no times: the sheets of the first table and of the growth of
//!                                                     the honest families as files (FOLDER from the root, /tmp/sheets)
//!
//! The honest sheets are lent examples/langs, where their names don't say another list.
//!
//! All are timed in one process on one buffer, in turn, and the least time of each counts: other
//! programs on the machine only ever add. Nothing is cleared between calls, so the buffer is warm.
//! Each sheet has a process of its own, which is ended when a checker takes longer than the limit.

#[path = "ratio/factors.rs"]
mod factors;
#[path = "ratio/frames.rs"]
mod frames;
#[path = "ratio/growth.rs"]
mod growth;
#[path = "ratio/timer.rs"]
mod timer;
#[path = "ratio/write.rs"]
mod write;

use std::path::Path;
use std::time::Duration;
use std::{env, fs, io};

use sheet::build::Plan;
use sheet::generate::languages::lists;
use sheet::generate::{honest, hostile, Generated};
use sheet::second;

use timer::{least_times, quotient, shown, Times, LIMIT};

/// The checkers take turns until so much time is gone.
const TURNS: Duration = Duration::from_secs(2);

fn main() -> io::Result<()> {
    if let Some(request) = timer::request() {
        return timer::time_one(request);
    }
    let words: Vec<String> = env::args().skip(1).filter(|word| !word.starts_with('-')).collect();
    match words.split_first() {
        Some((table, name)) if table == "growth" => growth::print_tables(&name.join(" "))?,
        Some((table, [])) if table == "factors" => factors::print_table(),
        Some((table, [])) if table == "frames" => frames::print_table(),
        Some((table, [folder])) if table == "write" => write::write_sheets(Path::new(folder))?,
        Some(_) => print_table(&words.join(" "))?,
        None => {
            print_table("")?;
            growth::print_tables("")?;
            factors::print_table();
            frames::print_table();
        }
    }
    Ok(())
}

/// Prints a row for each sheet with the text in its name.
fn print_table(text: &str) -> io::Result<()> {
    println!("least time per sheet, warm; a checker is given {LIMIT:?} for a sheet");
    let heads = ["bytes", "words", "verdict", "proved", "fast", "plain", "to fast", "to plain"];
    print_row("sheet, and words of its list", heads.map(String::from));
    for Generated { name, sheet, langs, .. } in sheets()? {
        if !name.contains(text) {
            continue;
        }
        let Times { proved, fast, plain } = least_times(&sheet, &langs, TURNS, true)?;
        let cells = [
            sheet.len().to_string(),
            (langs.len() / 2).to_string(),
            verdict(&sheet, &langs),
            shown(proved),
            shown(fast),
            shown(plain),
            quotient(proved, fast),
            quotient(proved, plain),
        ];
        print_row(&name, cells);
    }
    Ok(())
}

fn print_row(name: &str, [bytes, words, verdict, times @ ..]: [String; 8]) {
    let times = times.map(|time| format!(" {time:>11}")).concat();
    println!("{name:<60}{bytes:>7}{words:>7}{verdict:>10}{times}");
}

fn verdict(sheet: &[u8], langs: &[u8]) -> String {
    match second::check(sheet, langs) {
        second::Verdict::Accepted => "accepted".to_string(),
        second::Verdict::Broken { rule, .. } => format!("rule {rule}"),
    }
}

/// The sheets by name: the examples, large honest sheets, both with other lists, and hostile ones.
fn sheets() -> io::Result<Vec<Generated>> {
    let mut sheets = vec![example("a.sheet")?, example("play.sheet")?];
    sheets.extend(honest::sheets());
    let with_all_words: Vec<Generated> = sheets.iter().map(beside_all_words).collect();
    sheets.extend(beside_empty_lists());
    sheets.extend(with_all_words);
    let hostile = hostile::sheets();
    let of_languages = hostile.iter().filter(|hostile| hostile.name.contains("languages, all"));
    sheets.extend(of_languages.map(beside_all_words));
    sheets.extend(hostile);
    Ok(sheets)
}

fn example(file: &str) -> io::Result<Generated> {
    let folder = Path::new(env!("CARGO_MANIFEST_DIR")).join("../../../examples");
    let [sheet, langs] = [file, "langs"].map(|file| fs::read(folder.join(file)));
    let (name, expected) = (format!("honest examples/{file}"), None);
    Ok(Generated { name, sheet: sheet?, langs: langs?, expected })
}

/// The same sheet with the longest list that rises strictly.
fn beside_all_words(generated: &Generated) -> Generated {
    let name = format!("{}, list of all words", generated.name);
    Generated { name, langs: lists::all_words(), ..generated.clone() }
}

/// Honest sheets whose languages are all from qaa to qtz, which need no list.
fn beside_empty_lists() -> Vec<Generated> {
    let plans = [
        ("sheet A", Plan::sheet_a()),
        ("full sheet of level 2", honest::full()),
        ("largest sheet of level 0", honest::largest()),
    ];
    let local = |(name, plan)| Generated {
        name: format!("honest {name} in qaa to qtz, empty list"),
        sheet: honest::in_local_languages(plan).bytes(),
        langs: Vec::new(),
        expected: None,
    };
    plans.into_iter().map(local).collect()
}
