//! The inputs that are kept as files for the block times of a live frame.

use super::frames::{many, Plan};
use crate::second::frames::{check_input, line};

/// A file's name without its ending, and its bytes.
type Named = (&'static str, Vec<u8>);

/// So many blocks take 20,008 bytes, some reads of a program.
const SOME_READS: usize = 1_667;

/// The inputs under their file names, sorted by name, byte by byte.
pub fn inputs() -> Vec<(String, Vec<u8>)> {
    let plans = [accepted(), misplaced(), bad_lengths_and_starts(), bad_totals()].concat();
    let plans = plans.into_iter().map(|(name, plan)| (name, plan.input()));
    let all = plans.chain(left_over());
    let mut inputs: Vec<_> = all.map(|(name, bytes)| (format!("{name}.frame"), bytes)).collect();
    inputs.sort();
    inputs
}

/// The files of the program that is given them: the inputs below `data`, their names, which are its
/// arguments, in `args`, and what it has to print in `stdout`.
pub fn files() -> Vec<(String, Vec<u8>)> {
    let inputs = inputs();
    let arguments: String = inputs.iter().map(|(name, _)| format!("{name}\n")).collect();
    let expected: String = inputs.iter().map(|(name, input)| expected(name, input)).collect();
    let data = inputs.into_iter().map(|(name, input)| (format!("data/{name}"), input));
    let texts = [("args", arguments), ("stdout", expected)];
    data.chain(texts.map(|(name, text)| (name.to_string(), text.into_bytes()))).collect()
}

fn expected(name: &str, input: &[u8]) -> String {
    let verdict = check_input(input).expect("every stored input has a frame length");
    format!("{name}: {}", line(verdict))
}

/// Lengths with zero lengths first, twice between and last, in a frame of 40,000.
fn mixed() -> Plan {
    Plan::of_lengths(&[0, 5_000, 0, 0, 20_000, 15_000, 0])
}

/// Three blocks in a frame of 30,000.
fn three() -> Plan {
    Plan::of_lengths(&[5_000, 15_000, 10_000])
}

/// The same after an initialising block with a start and a length of no meaning.
fn initialised() -> Plan {
    three().with_block(0, 7, 4_999, 1)
}

fn accepted() -> Vec<(&'static str, Plan)> {
    let alone = |start, length, third| Plan::of_lengths(&[]).with_block(0, start, length, third);
    vec![
        ("ok-one-block", Plan::of_lengths(&[20_000])),
        ("ok-one-length-of-5000", Plan::of_lengths(&[5_000])),
        ("ok-lengths-of-5000", Plan::of_lengths(&[5_000; 5])),
        ("ok-three-blocks", three()),
        ("ok-initialising-first", initialised()),
        ("ok-initialising-of-zeros", three().with_block(0, 0, 0, 1)),
        ("ok-initialising-of-largest-numbers", three().with_block(0, u32::MAX, u32::MAX, u32::MAX)),
        ("ok-initialising-third-2", three().with_block(0, 0, 0, 2)),
        ("ok-initialising-third-256", three().with_block(0, 0, 0, 256)),
        ("ok-initialising-third-2147483648", three().with_block(0, 0, 0, 1 << 31)),
        ("ok-initialising-alone", alone(0, 0, 1)),
        ("ok-initialising-alone-numbers-not-read", alone(1, 4_999, 3)),
        ("ok-initialising-and-a-zero-length", Plan::of_lengths(&[0]).with_block(0, 0, 5_000, 1)),
        ("ok-zero-length-alone", Plan::of_lengths(&[0])),
        ("ok-zero-lengths-first-between-and-last", mixed()),
        ("ok-zero-lengths-100", Plan::of_lengths(&[0; 100])),
        ("ok-largest-frame", Plan::of_lengths(&[u32::MAX])),
        (
            "ok-largest-frame-in-blocks",
            Plan::of_lengths(&[1 << 31, 5_000, 0, (1 << 31) - 5_001]).with_block(0, 0, 0, 1),
        ),
        ("ok-many-blocks", many(SOME_READS)),
    ]
}

fn misplaced() -> Vec<(&'static str, Plan)> {
    let short = Plan::of_lengths(&[5_000, 4_999, 10_000]);
    let mut last = three();
    last.blocks[2].third = 1;
    vec![
        ("r35-second", three().with_block(1, 0, 0, 1)),
        ("r35-last", three().with_block(3, 30_000, 0, 1)),
        ("r35-last-with-a-length", last),
        ("r35-third-256", three().with_block(2, 20_000, 0, 256)),
        ("r35-third-2147483648", three().with_block(2, 20_000, 0, 1 << 31)),
        ("r35-two-initialising", initialised().with_block(1, 0, 0, 1)),
        (
            "r35-two-initialising-alone",
            Plan::of_lengths(&[]).with_block(0, 0, 0, 1).with_block(0, 0, 0, 1),
        ),
        ("r35-behind-a-bad-length", short.with_block(3, 19_999, 0, 1)),
        ("r35-behind-a-bad-start", three().with_start(1, 1).with_block(3, 30_000, 0, 1)),
        ("r35-before-a-bad-length", Plan::of_lengths(&[5_000, 4_999]).with_block(1, 0, 0, 1)),
        (
            "r35-and-a-number-left-over",
            three().with_block(2, 20_000, 0, 1).with_left_over(&[30_000]),
        ),
        ("r35-and-another-total", three().with_block(2, 20_000, 0, 1).in_frame(30_001)),
        ("r35-last-of-many-blocks", many(1_000).with_block(1_000, 0, 0, 1)),
    ]
}

fn bad_lengths_and_starts() -> Vec<(&'static str, Plan)> {
    let past_32_bits = Plan::of_lengths(&[u32::MAX, 5_001, 10_000]);
    let mut swapped = three();
    swapped.blocks.swap(1, 2);
    vec![
        ("r36-length-1", Plan::of_lengths(&[5_000, 1, 10_000])),
        ("r36-length-4999", Plan::of_lengths(&[5_000, 4_999, 10_000])),
        ("r36-length-4999-first", Plan::of_lengths(&[4_999, 5_000])),
        ("r36-length-4999-last", Plan::of_lengths(&[5_000, 4_999])),
        ("r36-length-4999-after-initialising", Plan::of_lengths(&[4_999]).with_block(0, 0, 0, 1)),
        ("r36-first-start-1", three().with_start(0, 1)),
        ("r36-start-one-too-large", three().with_start(2, 20_001)),
        ("r36-start-one-too-small", three().with_start(2, 19_999)),
        ("r36-start-of-a-zero-length", mixed().with_start(3, 5_001)),
        ("r36-start-counts-the-block-itself", three().with_start(1, 20_000)),
        ("r36-start-leaves-out-the-block-before", three().with_start(2, 5_000)),
        ("r36-start-counts-the-initialising-length", initialised().with_start(2, 9_999)),
        ("r36-first-start-is-the-initialising-length", initialised().with_start(1, 4_999)),
        ("r36-start-equal-only-modulo-2-to-the-32", past_32_bits),
        ("r36-blocks-in-another-order", swapped),
        ("r36-length-1-and-2-numbers-left-over", Plan::of_lengths(&[1]).with_left_over(&[1, 0])),
        ("r36-and-another-total", three().with_start(1, 5_001).in_frame(30_001)),
    ]
}

fn bad_totals() -> Vec<(&'static str, Plan)> {
    let empty = || Plan::of_lengths(&[]);
    let alone = |length| empty().with_block(0, 0, length, 1);
    vec![
        ("r37-no-block", empty()),
        ("r37-no-block-frame-20000", empty().in_frame(20_000)),
        ("r37-total-one-too-large", three().in_frame(29_999)),
        ("r37-total-one-too-small", three().in_frame(30_001)),
        ("r37-total-one-above-the-largest-frame", Plan::of_lengths(&[1 << 31, 1 << 31])),
        ("r37-total-equal-only-modulo-2-to-the-32", Plan::of_lengths(&[20_000, u32::MAX])),
        ("r37-zero-lengths-in-a-frame-of-4999", Plan::of_lengths(&[0, 0]).in_frame(4_999)),
        ("r37-initialising-alone-frame-1", alone(0).in_frame(1)),
        ("r37-initialising-alone-frame-of-its-length", alone(5_000).in_frame(5_000)),
        ("r37-frame-counts-the-initialising-length", initialised().in_frame(34_999)),
    ]
}

/// Numbers and bytes that are left over.
fn left_over() -> Vec<Named> {
    let three = |left_over: &[u8]| [&three().input(), left_over].concat();
    let none = |left_over: &[u8]| [&Plan::of_lengths(&[]).input(), left_over].concat();
    vec![
        ("r36-left-over-1-byte", three(&[0])),
        ("r36-left-over-1-number", three(&[0, 0, 0x75, 0x30])),
        ("r36-left-over-5-bytes", three(&[0, 0, 0x75, 0x30, 0])),
        ("r36-left-over-2-numbers", three(&[0, 0, 0x75, 0x30, 0, 0, 0, 0])),
        ("r36-left-over-11-bytes", three(&[0, 0, 0x75, 0x30, 0, 0, 0, 0, 0, 0, 0])),
        ("r36-left-over-11-bytes-marked", three(&[0, 0, 0, 0, 0, 0, 0, 0, 1, 1, 1])),
        ("r36-left-over-alone-1-byte", none(&[0])),
        ("r36-left-over-alone-1-number", none(&[0, 0, 0, 0])),
        ("r36-left-over-alone-2-numbers", none(&[0, 0, 0, 0, 0, 0, 0, 0])),
        ("r36-left-over-alone-11-bytes-marked", none(&[0, 0, 0, 0, 0, 0, 0, 0, 1, 1, 1])),
    ]
}
