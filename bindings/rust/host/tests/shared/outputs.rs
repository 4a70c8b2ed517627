//! Standard outputs that can't be written.

use std::fs::File;
use std::process::{Command, Stdio};

/// A file on which every write fails.
pub fn full() -> Stdio {
    File::create("/dev/full").expect("there is /dev/full").into()
}

/// The program, without arguments, as a shell starts it with its standard output closed.
pub fn with_closed_output(program: &Command) -> Command {
    let mut shell = Command::new("sh");
    shell.args(["-c", "exec \"$0\" >&-"]).arg(program.get_program());
    shell
}
