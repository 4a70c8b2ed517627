//! Runs the program `sheetfigures`.

use std::env;
use std::io::{self, Write};
use std::path::{self, Path, PathBuf};
use std::process::{Command, Output, Stdio};
use std::thread;

use crate::built;

/// The variable that names another file to be run as the program.
const VARIABLE: &str = "SHEETFIGURES";

/// The program's file.
pub struct Program(PathBuf);

impl Program {
    /// The program, if it was built.
    pub fn find() -> Result<Program, String> {
        match env::var_os(VARIABLE) {
            // the program runs in another folder
            Some(file) => path::absolute(file).map(Program).map_err(|error| error.to_string()),
            None => built::program("sheetfigures").map(Program),
        }
    }

    /// What the program prints on a sheet in a folder, where it ends well and says nothing on
    /// standard error.
    pub fn run(&self, folder: &Path, sheet: &[u8]) -> Result<String, String> {
        let said =
            self.output(folder, sheet).map_err(|error| format!("{}: {error}", self.0.display()))?;
        let [output, errors] = [said.stdout, said.stderr].map(|bytes| text(&bytes));
        match said.status.success() && errors.is_empty() {
            true => Ok(output),
            false => Err(format!("{}, standard error {errors:?}", said.status)),
        }
    }

    fn output(&self, folder: &Path, sheet: &[u8]) -> io::Result<Output> {
        let mut command = Command::new(&self.0);
        command.current_dir(folder);
        command.stdin(Stdio::piped()).stdout(Stdio::piped()).stderr(Stdio::piped());
        let mut child = command.spawn()?;
        let mut input = child.stdin.take().expect("the standard input is a pipe");
        thread::scope(|scope| {
            // fails where the program doesn't read to the end, and that is no difference
            scope.spawn(move || input.write_all(sheet));
            child.wait_with_output()
        })
    }
}

/// Bytes that are no text show as such.
fn text(bytes: &[u8]) -> String {
    match std::str::from_utf8(bytes) {
        Ok(text) => String::from(text),
        Err(_) => format!("{bytes:?}"),
    }
}
