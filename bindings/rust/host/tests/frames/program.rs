//! `framecheck` on inputs, against what the second implementation says to them.

use sheet::generate::frames::{damaged, Plan, RandomFrames};
use sheet::generate::random::Random;
use sheet::generate::{frames, stored_frames};
use sheet::second::frames::{check_input, line};

use crate::folder::{Folder, LANGS};
use crate::input::{self, Input};
use crate::run::{program, program_in, run};

/// The name of the program.
pub const FRAMECHECK: &str = "framecheck";

/// A read that asks for less than a piece loses its rest, and `framecheck` asks for the four bytes of
/// the frame length, then for 4,092 at a time: so pieces have to fill both. The frame length comes in
/// pieces of these sizes.
const FIRST_SIZES: [&[usize]; 4] = [&[4], &[1, 3], &[2, 2], &[1, 1, 2]];
/// Sizes of pieces that are taken in turn: whole numbers, parts of them, and more than a block.
/// Together they are 93, a 44th of 4,092.
const ODD_SIZES: [usize; 11] = [1, 2, 3, 5, 8, 13, 4, 12, 11, 20, 14];
/// Sizes that are parts of 4,092 by themselves.
const EVEN_SIZES: [usize; 7] = [1, 2, 3, 11, 12, 31, 1_023];
/// How many lists of each way of damage, and then how many random ones, are given to the program.
const ROUNDS: usize = 4;
const RANDOM: usize = 150;

/// Runs `framecheck` on an input with a frame length: it must print the second implementation's
/// verdict, and have read all, which shows where the input is longer than a pipe holds.
pub fn compare(what: &str, bytes: &[u8], input: Input) {
    let verdict = check_input(bytes).expect("the input has a frame length");
    let run = run(program(FRAMECHECK, &[]), input);
    run.must_say(&line(verdict), what);
    assert!(run.input_taken, "{what}: not read to the end");
}

/// The same where the input comes in pieces, of which each read gives one.
fn in_pieces(what: &str, bytes: &[u8], first: &[usize], others: &[usize]) {
    let what = format!("{what}, in reads of {first:?} and {others:?}");
    compare(&what, bytes, input::pieces_of(bytes, first, others));
}

/// Inputs of some lists for each way of damage, and of random ones.
fn generated() -> Vec<(&'static str, Vec<u8>)> {
    let mut random = Random::new(2125);
    let mut lists: Vec<_> = (0..ROUNDS).flat_map(|_| damaged(&mut random)).collect();
    lists.extend(RandomFrames::new(4).take(RANDOM));
    lists.iter().map(|list| (list.what, frames::input(list.frame, &list.numbers))).collect()
}

/// An accepted list that ends so if it is cut: with an initialising block first and zero lengths.
fn accepted() -> Plan {
    Plan::of_lengths(&[0, 5_000, 0, 70_000, 5_001]).with_block(0, 3, 4_999, 256)
}

#[test]
fn stored_inputs() {
    let inputs = stored_frames::inputs();
    for (name, bytes) in &inputs {
        compare(name, bytes, input::pipe(bytes));
    }
    println!("{FRAMECHECK}, as stored: {} inputs, no difference", inputs.len());
}

#[test]
fn stored_inputs_in_pieces() {
    let inputs = stored_frames::inputs();
    for (name, bytes) in &inputs {
        for size in EVEN_SIZES {
            in_pieces(name, bytes, FIRST_SIZES[0], &[size]);
        }
        for at in 0..ODD_SIZES.len() {
            let sizes = [&ODD_SIZES[at..], &ODD_SIZES[..at]].concat();
            in_pieces(name, bytes, FIRST_SIZES[at % FIRST_SIZES.len()], &sizes);
        }
    }
    println!("{FRAMECHECK}, in pieces: {} inputs, no difference", inputs.len());
}

#[test]
fn generated_inputs() {
    let inputs = generated();
    for (what, bytes) in &inputs {
        let what = format!("{what}, {bytes:?}");
        compare(&what, bytes, input::pipe(bytes));
        in_pieces(&what, bytes, FIRST_SIZES[1], &ODD_SIZES);
    }
    println!("{FRAMECHECK}, generated: {} inputs, no difference", inputs.len());
}

/// Each cut of an accepted input, and of one that becomes 35 with its fourth block: all numbers of
/// bytes are left over.
#[test]
fn every_cut() {
    let misplaced = accepted().with_block(3, 0, 0, 1);
    let mut cuts = 0;
    for input in [accepted(), misplaced].map(|plan| plan.input()) {
        for length in 4..=input.len() {
            let (what, bytes) = (format!("{length} bytes of {input:?}"), &input[..length]);
            compare(&what, bytes, input::pipe(bytes));
            for size in [1, 31] {
                in_pieces(&what, bytes, FIRST_SIZES[3], &[size]);
            }
            cuts += 1;
        }
    }
    println!("{FRAMECHECK}, cut short: {cuts} inputs, no difference");
}

/// The same cuts of an accepted input in the frame that its whole blocks fill: then all whole
/// blocks alone conform, and nothing else does.
#[test]
fn every_cut_in_its_own_frame() {
    let plan = accepted();
    for blocks in 1..=plan.blocks.len() {
        let lengths: Vec<u32> = plan.blocks[1..blocks].iter().map(|block| block.length).collect();
        let whole = plan.clone().in_frame(lengths.iter().sum()).input();
        for left_over in 0..12.min(whole.len() - 4 - 12 * blocks + 1) {
            let bytes = &whole[..4 + 12 * blocks + left_over];
            let said = if left_over == 0 { "accepted\n" } else { "rule 36\n" };
            let what = format!("{blocks} blocks and {left_over} bytes");
            run(program(FRAMECHECK, &[]), input::pipe(bytes)).must_say(said, &what);
        }
    }
    println!("{FRAMECHECK}, cut short in frames of their own: no difference");
}

/// It is lent no sheet, so a list of languages that doesn't rise is nothing to it.
#[test]
fn no_languages_are_read() {
    let folder = Folder::new("framecheck beside a list");
    folder.lend(&[1, 0, 1, 0]);
    let framecheck = program_in(folder.path(), FRAMECHECK, &[]);
    run(framecheck, input::pipe(&accepted().input())).must_say("accepted\n", "beside a list");
    println!("{FRAMECHECK} beside a file {LANGS}: no difference");
}
