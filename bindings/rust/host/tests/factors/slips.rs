//! What `gaintenths` says to a user's slips: one line on standard error, and nothing else.

use crate::input;
use crate::outputs::{full, with_closed_output};
use crate::run::{program, run, run_into};

/// How many lines it is offered while it can't answer: many times what a pipe holds.
const MANY_LINES: usize = 200_000;

#[test]
fn with_arguments() {
    let slips = [&["--help"][..], &["1000"], &[""], &["/dev/null"], &["1", "2"]];
    for arguments in slips {
        for input in [&b""[..], b"1000\n"] {
            let what = format!("gaintenths {arguments:?} on {} bytes", input.len());
            let run = run(program("gaintenths", arguments), input::pipe(input));
            run.must_complain_with_status_0("usage: gaintenths <FILE\n", &what);
        }
    }
    println!("gaintenths with arguments: {} lines", 2 * slips.len());
}

#[test]
fn on_a_folder() {
    let run = run(program("gaintenths", &[]), input::file("/"));
    run.must_complain_with_status_0("standard input: ", "gaintenths </");
    println!("gaintenths on a folder: 1 line");
}

#[test]
fn with_a_full_output() {
    let lines = b"1000\n".repeat(MANY_LINES);
    let run = run_into(full(), program("gaintenths", &[]), input::pipe(&lines));
    run.must_complain_with_status_0("standard output: ", "gaintenths >/dev/full");
    assert!(!run.input_taken, "gaintenths >/dev/full: reads on, all of {MANY_LINES} lines");
    println!("gaintenths with a full output: 1 line, and the program ends");
}

#[test]
fn with_a_closed_output() {
    let run = run(with_closed_output(&program("gaintenths", &[])), input::pipe(b"1000\n"));
    run.must_complain_with_status_0("standard output: ", "gaintenths >&-");
    println!("gaintenths with a closed output: 1 line");
}
