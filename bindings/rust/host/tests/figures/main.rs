//! The differential test of the figures: the program `sheetfigures` against the second
//! implementation, which was written apart from it, on sheets from fixed seeds.
//!
//! The program runs once for each sheet, in a folder with the list, and its standard output is
//! compared byte by byte. The test prints how many sheets met each class of clashes. It fails at
//! the first difference, whose sheet and list are kept as files, or if a class was never met.

#[path = "../shared/built.rs"]
mod built;
#[path = "../shared/difference.rs"]
mod difference;
#[path = "../shared/folder.rs"]
mod folder;
mod program;
mod sheets;

use std::fs;
use std::path::Path;
use std::process::ExitCode;
use std::thread;

use difference::first_difference;
use folder::Folder;
use program::Program;
use sheet::generate::figures::met::Met;
use sheet::generate::Generated;
use sheet::second::figures::lines;

/// How many threads run the program.
const THREADS: usize = 3;

fn main() -> ExitCode {
    match compare_all() {
        Ok(true) => ExitCode::SUCCESS,
        Ok(false) => ExitCode::FAILURE,
        Err(difference) => {
            println!("{difference}");
            ExitCode::FAILURE
        }
    }
}

/// Whether all classes were met, where there is no difference.
fn compare_all() -> Result<bool, String> {
    let program = Program::find()?;
    let sheets = sheets::all();
    let mut met = Met::default();
    thread::scope(|scope| {
        let parts = sheets.chunks(sheets.len().div_ceil(THREADS));
        let folders = (0..).map(|number| Folder::new(&format!("figures-{number}")));
        let program = &program;
        let runs: Vec<_> = parts
            .zip(folders)
            .map(|(part, folder)| scope.spawn(move || compare_part(program, &folder, part)))
            .collect();
        runs.into_iter().try_for_each(|run| {
            met.add_all(run.join().expect("a thread doesn't panic").map_err(kept)?);
            Ok::<_, String>(())
        })
    })?;
    let never_met = met.never_met();
    print!("{met}");
    println!("figures test: {} sheets, no difference, never met: {never_met:?}", sheets.len());
    Ok(never_met.is_empty())
}

/// A sheet on which the program and the second implementation differ, and how.
struct Difference<'a> {
    generated: &'a Generated,
    how: String,
}

/// What a part of the sheets met, up to the first difference.
fn compare_part<'a>(
    program: &Program,
    folder: &Folder,
    sheets: &'a [Generated],
) -> Result<Met, Difference<'a>> {
    let mut met = Met::default();
    for generated in sheets {
        let Generated { sheet, langs, .. } = generated;
        match langs.is_empty() {
            true => folder.lend_nothing(),
            false => folder.lend(langs),
        }
        compare(program, folder, generated).map_err(|how| Difference { generated, how })?;
        met.add(sheet, langs);
    }
    Ok(met)
}

fn compare(program: &Program, folder: &Folder, generated: &Generated) -> Result<(), String> {
    let Generated { sheet, langs, .. } = generated;
    let proved = program.run(folder.path(), sheet)?;
    match first_difference(&lines(sheet, langs), &proved) {
        Some(difference) => Err(difference),
        None => Ok(()),
    }
}

/// Keeps the sheet and the list as files; says how they differ and where they are kept.
fn kept(Difference { generated, how }: Difference) -> String {
    let folder = Path::new(env!("CARGO_TARGET_TMPDIR"));
    let [sheet, langs] =
        ["sheet", "langs"].map(|kind| folder.join("figures-difference").with_extension(kind));
    fs::write(&sheet, &generated.sheet).expect("the sheet can be written");
    fs::write(&langs, &generated.langs).expect("the list can be written");
    let name = &generated.name;
    format!("{name}: {how}\n    kept as {} and {}", sheet.display(), langs.display())
}
