//! Runs the program `listentest`, which plays scripts on the proved listener.

use std::path::{Path, PathBuf};
use std::process::Command;
use std::{fs, io};

use sheet::generate::scripts::Script;

use crate::built;

/// The answers to each script, from one run of the program.
pub fn play(scripts: &[Script]) -> Result<Vec<String>, String> {
    let program = built::program("listentest")?;
    let said = run(&program, scripts).map_err(|error| format!("{}: {error}", program.display()))?;
    Ok(split(&said, scripts.len()))
}

fn run(program: &Path, scripts: &[Script]) -> io::Result<String> {
    let folder = folder()?;
    for (number, script) in scripts.iter().enumerate() {
        fs::write(folder.join(langs_name(number)), &script.langs)?;
        fs::write(folder.join(sheet_name(number)), &script.sheet)?;
        fs::write(folder.join(script_name(number)), script.text())?;
    }
    let names_of = |number| [langs_name(number), sheet_name(number), script_name(number)];
    let names = (0..scripts.len()).flat_map(names_of);
    let output = Command::new(program).current_dir(&folder).args(names).output()?;
    match output.status.success() && output.stderr.is_empty() {
        true => Ok(String::from_utf8_lossy(&output.stdout).into_owned()),
        false => {
            let errors = String::from_utf8_lossy(&output.stderr);
            Err(io::Error::other(format!("{}, {errors}", output.status)))
        }
    }
}

/// The folder in which the program runs, made if it isn't there.
fn folder() -> io::Result<PathBuf> {
    let folder = Path::new(env!("CARGO_TARGET_TMPDIR")).join("listening");
    fs::create_dir_all(&folder)?;
    Ok(folder)
}

fn langs_name(number: usize) -> String {
    format!("{number}.langs")
}

fn sheet_name(number: usize) -> String {
    format!("{number}.sheet")
}

fn script_name(number: usize) -> String {
    format!("{number}.script")
}

/// The answers after each script's heading; none for a script whose heading is missing.
fn split(said: &str, number: usize) -> Vec<String> {
    let mut rest = said.lines().peekable();
    let answers_to = |number| {
        if rest.next_if_eq(&format!("script {}", script_name(number)).as_str()).is_none() {
            return String::new();
        }
        let mut answers = String::new();
        while let Some(line) = rest.next_if(|line| !line.starts_with("script ")) {
            answers += line;
            answers.push('\n');
        }
        answers
    };
    (0..number).map(answers_to).collect()
}
