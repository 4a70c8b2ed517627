//! What the programs say to a user's slips: one line on standard error, and nothing else.

use crate::input;
use crate::outputs::{full, with_closed_output};
use crate::run::{program, run, run_into};
use crate::stored::sheet_a;

/// The programs that print a verdict on standard input.
const CHECKING: [&str; 2] = ["sheetcheck", "sheetfigures"];

/// How many lines `listen` is offered while it can't answer: many times what a pipe holds.
const MANY_LINES: usize = 200_000;

#[test]
fn a_checking_program_with_arguments() {
    let sheet = sheet_a();
    let slips = [&[&*sheet.file][..], &["--help"], &[&sheet.file, &sheet.file]];
    let inputs = [&[][..], &sheet.bytes];
    for name in CHECKING {
        for arguments in slips {
            for input in inputs {
                let what = format!("{name} {arguments:?} on {} bytes", input.len());
                let run = run(program(name, arguments), input::pipe(input));
                run.must_complain(&format!("usage: {name}"), &what);
            }
        }
    }
    println!("with arguments: {} lines", CHECKING.len() * slips.len() * inputs.len());
}

#[test]
fn a_checking_program_on_a_folder() {
    for name in CHECKING {
        let run = run(program(name, &[]), input::file("/"));
        run.must_complain("standard input: ", &format!("{name} </"));
    }
    println!("on a folder: {} lines", CHECKING.len());
}

#[test]
fn a_checking_program_with_a_full_output() {
    for name in CHECKING {
        let run = run_into(full(), program(name, &[]), input::file(&sheet_a().file));
        run.must_complain("standard output: ", &format!("{name} >/dev/full"));
    }
    println!("with a full output: {} lines", CHECKING.len());
}

#[test]
fn a_checking_program_with_a_closed_output() {
    for name in CHECKING {
        let run = run(with_closed_output(&program(name, &[])), input::file(&sheet_a().file));
        run.must_complain("standard output: ", &format!("{name} >&-"));
    }
    println!("with a closed output: {} lines", CHECKING.len());
}

#[test]
fn listen_without_a_sheet_or_with_two() {
    let sheet = sheet_a();
    let slips = [&[][..], &["--help"], &[&*sheet.file, &sheet.file]];
    for arguments in slips {
        let run = run(program("listen", arguments), input::pipe(b"list\n"));
        run.must_complain("usage: listen", &format!("listen {arguments:?}"));
    }
    println!("listen without a sheet or with two: {} lines", slips.len());
}

#[test]
fn listen_to_a_sheet_that_is_missing() {
    let name = "no-such.sheet";
    let run = run(program("listen", &[name]), input::pipe(b"list\n"));
    run.must_complain(&format!("{name}:"), &format!("listen {name}"));
    println!("listen to a sheet that is missing: 1 line");
}

#[test]
fn listen_with_a_full_output() {
    let lines = b"list\n".repeat(MANY_LINES);
    let run = run_into(full(), program("listen", &[&sheet_a().file]), input::pipe(&lines));
    run.must_complain("standard output: ", "listen >/dev/full");
    assert!(!run.input_taken, "listen >/dev/full: reads on, all of {MANY_LINES} lines");
    println!("listen with a full output: 1 line, and the program ends");
}
