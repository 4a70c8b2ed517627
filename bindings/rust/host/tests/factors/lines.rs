//! `gaintenths` on lines, against what the second computation says to them.

use sheet::factor_lines::answers;
use sheet::generate::factors::{
    around_entries, around_powers_of_two, lines_of, long_lines, odd_lines, with_ends, RandomLines,
    EXAMPLES,
};
use sheet::generate::stored_factors;

use crate::folder::{Folder, LANGS};
use crate::input::{self, Input};
use crate::run::{program, program_in, run};

/// How many lines are written in one go.
const MANY_LINES: usize = 400_000;
/// How many random lines come in pieces.
const LINES_IN_PIECES: usize = 5_000;

/// Runs `gaintenths` on an input, and it must answer as the second computation does; gives the
/// number of lines.
fn answered(what: &str, bytes: &[u8], input: impl Fn(&[u8]) -> Input<'_>) -> usize {
    run(program("gaintenths", &[]), input(bytes)).must_say(&answers(bytes), what)
}

/// The same, and prints the number of lines.
fn compare(what: &str, bytes: &[u8], input: impl Fn(&[u8]) -> Input<'_>) {
    println!("gaintenths, {what}: {} lines, no difference", answered(what, bytes, input));
}

/// The factors as lines.
fn numbers(factors: &[u32]) -> Vec<Vec<u8>> {
    factors.iter().map(|factor| factor.to_string().into_bytes()).collect()
}

/// Lines of all kinds: factors, odd lines, long lines.
fn all_kinds() -> Vec<Vec<u8>> {
    let factors = [around_entries(), around_powers_of_two(), EXAMPLES.to_vec()].concat();
    [numbers(&factors), odd_lines(), long_lines()].concat()
}

#[test]
fn lines_of_all_kinds() {
    for (what, end) in [("all kinds of lines", "\n"), ("with carriage returns", "\r\n")] {
        compare(what, &with_ends(all_kinds(), end), input::pipe);
    }
}

#[test]
fn lines_of_every_byte() {
    let bytes = (0..=255).filter(|&byte| byte != b'\n');
    let lines = bytes.flat_map(|byte| [vec![byte], vec![byte, b'7'], vec![b'7', byte]]);
    compare("lines of every byte", &with_ends(lines, "\n"), input::pipe);
}

#[test]
fn the_stored_lines() {
    compare("stored lines", &stored_factors::input(), input::pipe);
}

#[test]
fn a_last_line_with_and_without_its_end() {
    let short = [&b""[..], b"1000000", b"1000000\r", b"\r", b" ", b"x", b"\n", b"0\n", b"\r\n"];
    let lasts = short.into_iter().map(Vec::from).chain(long_lines());
    let inputs =
        lasts.flat_map(|last| [&b""[..], b"1\n", b"\n"].map(|first| [first, &last].concat()));
    let lines = inputs.map(|bytes| {
        let what = format!("input {:?}", String::from_utf8_lossy(&bytes));
        answered(&what, &bytes, input::pipe)
    });
    println!("gaintenths, last lines: {} lines, no difference", lines.sum::<usize>());
}

#[test]
fn lines_that_are_far_too_long() {
    let lengths = [300, 512, 4095, 4096, 4097, 65_535, 65_536, 65_537, 1_000_000];
    let lines = lengths.into_iter().flat_map(lines_of);
    let between = lines.flat_map(|line| [line, b"1001".to_vec()]);
    compare("lines that are far too long", &with_ends(between, "\n"), input::pipe);
}

#[test]
fn many_lines_in_one_go() {
    let lines = RandomLines::new(2076).take(MANY_LINES);
    compare("in one go", &with_ends(lines, "\n"), input::pipe);
}

#[test]
fn lines_in_pieces() {
    let random = RandomLines::new(65_534).take(LINES_IN_PIECES);
    let lines: Vec<_> = [odd_lines(), long_lines()].concat().into_iter().chain(random).collect();
    for end in ["\n", "\r\n"] {
        let bytes = with_ends(lines.clone(), end);
        for size in [1, 2, 3, 7, 20] {
            let what = format!("in reads of {size}, ends of {}", end.len());
            compare(&what, &bytes, |bytes| input::pieces(bytes, size));
        }
    }
}

/// It is lent no sheet, so a list that doesn't rise is nothing to it.
#[test]
fn no_list_is_read() {
    let folder = Folder::new("gaintenths beside a list");
    folder.lend(&[1, 0, 1, 0]);
    let gaintenths = program_in(folder.path(), "gaintenths", &[]);
    run(gaintenths, input::pipe(b"1000\n")).must_say("-600\n", "beside a list that falls");
    println!("gaintenths beside a file {LANGS}: no difference");
}
