//! All lists of up to three blocks whose numbers are a few that lie about a boundary.

use super::{Listed, SMALL};

/// The numbers of up to two blocks, and of what is left over.
const NUMBERS: [u32; 9] = [0, 1, 4_999, 5_000, 5_001, 9_999, 10_000, u32::MAX - 4_999, u32::MAX];
/// The starts of three blocks.
const STARTS: [u32; 4] = [0, 5_000, 10_000, u32::MAX - 4_999];
/// The lengths of three blocks.
const LENGTHS: [u32; 5] = [0, 4_999, 5_000, u32::MAX - 4_999, u32::MAX];

/// All of them, those with numbers left over among them.
pub fn lists() -> impl Iterator<Item = Listed> {
    let whole = up_to_two().flat_map(|numbers| in_frames(numbers, &NUMBERS));
    let three = three().flat_map(|numbers| in_frames(numbers, &[0, 10_000]));
    let left_over = with_left_over().flat_map(|numbers| in_frames(numbers, &[0]));
    whole.chain(three).chain(left_over)
}

/// The numbers of all blocks that are made of these.
fn blocks(starts: &[u32], lengths: &[u32]) -> Vec<Vec<u32>> {
    let starts_and_lengths =
        starts.iter().flat_map(|&start| lengths.iter().map(move |&length| [start, length]));
    starts_and_lengths
        .flat_map(|[start, length]| [0, 1].map(|third| vec![start, length, third]))
        .collect()
}

/// Each of these with each of those after it.
fn followed(one: Vec<Vec<u32>>, other: Vec<Vec<u32>>) -> impl Iterator<Item = Vec<u32>> {
    one.into_iter().flat_map(move |one| {
        other.iter().map(|other| [&one[..], other].concat()).collect::<Vec<_>>()
    })
}

fn up_to_two() -> impl Iterator<Item = Vec<u32>> {
    let blocks = || blocks(&NUMBERS, &NUMBERS);
    [Vec::new()].into_iter().chain(blocks()).chain(followed(blocks(), blocks()))
}

fn three() -> impl Iterator<Item = Vec<u32>> {
    let blocks = || blocks(&STARTS, &LENGTHS);
    followed(followed(blocks(), blocks()).collect(), blocks())
}

/// No block and each single one with one number or two after it, each two blocks with some.
fn with_left_over() -> impl Iterator<Item = Vec<u32>> {
    let one = NUMBERS.map(|number| vec![number]).to_vec();
    let left_over: Vec<_> = one.iter().cloned().chain(followed(one.clone(), one.clone())).collect();
    let up_to_one = [Vec::new()].into_iter().chain(blocks(&NUMBERS, &NUMBERS)).collect();
    let two = followed(blocks(&STARTS, &LENGTHS), blocks(&STARTS, &LENGTHS)).collect();
    followed(up_to_one, left_over).chain(followed(two, vec![vec![0], vec![1, 1]]))
}

/// The numbers in these frames, and in frames of the lengths' sum, cut to 32 bits, and one beside
/// it.
fn in_frames(numbers: Vec<u32>, frames: &[u32]) -> Vec<Listed> {
    let blocks = numbers.as_chunks::<3>().0.iter().filter(|block| block[2] == 0);
    let sum = blocks.fold(0, |sum: u32, block| sum.wrapping_add(block[1]));
    let near = [sum.wrapping_sub(1), sum, sum.wrapping_add(1)];
    let mut frames = [frames, &near].concat();
    frames.sort_unstable();
    frames.dedup();
    let listed = |frame| Listed::unsettled(SMALL, frame, numbers.clone());
    frames.into_iter().map(listed).collect()
}
