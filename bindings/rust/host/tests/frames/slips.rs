//! What `framecheck` says to a user's slips: one line on standard error, and nothing else.

use sheet::generate::frames::Plan;

use crate::input;
use crate::outputs::{full, with_closed_output};
use crate::program::FRAMECHECK;
use crate::run::{program, run, run_into};

/// An accepted input.
fn accepted() -> Vec<u8> {
    Plan::of_lengths(&[20_000]).input()
}

#[test]
fn with_arguments() {
    let slips = [&["--help"][..], &["20000"], &[""], &["/dev/null"], &["1", "2"]];
    for arguments in slips {
        for input in [&b""[..], &accepted()] {
            let what = format!("{FRAMECHECK} {arguments:?} on {} bytes", input.len());
            let run = run(program(FRAMECHECK, arguments), input::pipe(input));
            run.must_complain_with_status_0("usage: framecheck <FILE\n", &what);
        }
    }
    println!("{FRAMECHECK} with arguments: {} lines", 2 * slips.len());
}

#[test]
fn without_a_frame_length() {
    let input = &accepted()[..3];
    for bytes in (0..=input.len()).map(|length| &input[..length]) {
        let what = format!("{FRAMECHECK} on {} bytes", bytes.len());
        for input in [input::pipe(bytes), input::pieces(bytes, 1)] {
            let run = run(program(FRAMECHECK, &[]), input);
            run.must_complain_with_status_0("standard input: no frame length\n", &what);
        }
    }
    println!("{FRAMECHECK} without a frame length: {} lines", 2 * (input.len() + 1));
}

#[test]
fn on_a_folder() {
    let run = run(program(FRAMECHECK, &[]), input::file("/"));
    run.must_complain_with_status_0("standard input: ", "framecheck </");
    println!("{FRAMECHECK} on a folder: 1 line");
}

#[test]
fn with_a_full_output() {
    let run = run_into(full(), program(FRAMECHECK, &[]), input::pipe(&accepted()));
    run.must_complain_with_status_0("standard output: ", "framecheck >/dev/full");
    println!("{FRAMECHECK} with a full output: 1 line");
}

#[test]
fn with_a_closed_output() {
    let framecheck = with_closed_output(&program(FRAMECHECK, &[]));
    let run = run(framecheck, input::pipe(&accepted()));
    run.must_complain_with_status_0("standard output: ", "framecheck >&-");
    println!("{FRAMECHECK} with a closed output: 1 line");
}
