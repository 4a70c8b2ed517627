//! `framecheck` on inputs of many lengths: about the ends of a reader's buffer, and long ones.

use std::fs;

use sheet::generate::frames::{many, Plan};

use crate::folder::Folder;
use crate::input;
use crate::program::{compare, FRAMECHECK};

/// A size that buffers have.
const BUFFER: usize = 4_096;
/// The bytes of a block.
const BLOCK: usize = 12;
/// The bytes of long inputs, both of whole blocks.
const LONG: usize = 1 << 20;
const LONGEST: usize = 40 << 20;

/// So many whole blocks are in so many bytes.
fn blocks(bytes: usize) -> usize {
    (bytes - 4) / BLOCK
}

/// Cuts an input of more blocks to this length; the frame is that of the whole ones, and so much
/// more.
fn cut(bytes: usize, more: u32) -> Vec<u8> {
    let blocks = blocks(bytes);
    let frame = many(blocks).frame.wrapping_add(more);
    let mut input = many(blocks + 1).in_frame(frame).input();
    input.truncate(bytes);
    input
}

#[test]
fn lengths_about_a_buffer() {
    let near = |middle: usize| middle - BLOCK - 4..=middle + BLOCK + 4;
    let mut inputs = 0;
    for bytes in [BUFFER, 2 * BUFFER, 3 * BUFFER].into_iter().flat_map(near) {
        let misplaced = |place| {
            let plan = many(blocks(bytes) - 1).with_block(place, 0, 0, 1);
            let left_over = vec![0; (bytes - 4) % BLOCK];
            [plan.input(), left_over].concat()
        };
        let last = blocks(bytes) - 1;
        for input in [cut(bytes, 0), cut(bytes, 1), misplaced(0), misplaced(last)] {
            compare(&format!("{bytes} bytes"), &input, input::pipe(&input));
            inputs += 1;
        }
    }
    println!("{FRAMECHECK}, about the ends of a buffer: {inputs} inputs, no difference");
}

/// An accepted input with another byte near the ends of a buffer, whether it holds the frame length
/// or not.
#[test]
fn each_byte_about_the_end_of_a_buffer() {
    let accepted = many(1_000).input();
    let places = [BUFFER, 2 * BUFFER].map(|end| end - BLOCK..end + 2 * BLOCK);
    for place in places.into_iter().flatten() {
        let mut input = accepted.clone();
        input[place] ^= 1;
        compare(&format!("another byte {place}"), &input, input::pipe(&input));
    }
    println!("{FRAMECHECK}, other bytes at the ends of a buffer: no difference");
}

/// The plan as it is, and broken at its end, by name.
fn accepted_and_broken(bytes: usize) -> Vec<(&'static str, Plan)> {
    let (plan, last) = (many(blocks(bytes)), blocks(bytes) - 1);
    let frame = plan.frame;
    let mut marked = plan.clone();
    marked.blocks[last].third = 1 << 31;
    vec![
        ("bad last start", plan.clone().with_start(last, 0)),
        ("initialising last", marked),
        ("one more", plan.clone().in_frame(frame + 1)),
        ("a number left over", plan.clone().with_left_over(&[frame])),
        ("initialising first", plan.clone().with_block(0, 1, 4_999, 1)),
        ("accepted", plan),
    ]
}

#[test]
fn a_long_input() {
    let folder = Folder::new("framecheck long");
    for (name, plan) in accepted_and_broken(LONG) {
        let (input, file) = (plan.input(), folder.path().join("input"));
        let what = format!("{} bytes, {name}", input.len());
        compare(&what, &input, input::pipe(&input));
        fs::write(&file, &input).expect("the input can be written");
        let from_file = input::file(&file.display().to_string());
        compare(&format!("{what}, from a file"), &input, from_file);
    }
    for left_over in 1..BLOCK {
        let input = cut(LONG + left_over, 0);
        compare(&format!("{} bytes", input.len()), &input, input::pipe(&input));
    }
    println!("{FRAMECHECK}, inputs of {LONG} bytes: no difference");
}

#[test]
fn the_longest_input() {
    for (name, plan) in accepted_and_broken(LONGEST) {
        let input = plan.input();
        compare(&format!("{} bytes, {name}", input.len()), &input, input::pipe(&input));
    }
    println!("{FRAMECHECK}, inputs of {LONGEST} bytes: no difference");
}
