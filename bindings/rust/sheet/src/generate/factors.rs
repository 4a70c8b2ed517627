//! Factors, and lines for the program that gives their gains.

use super::random::Random;
use crate::lines::LONGEST_LINE;
use crate::second::factors::{table, LARGEST};

/// The factors of document 02's examples.
pub const EXAMPLES: [u32; 8] = [0, 1, 1000, 1001, 1_000_000, 1_000_001, LARGEST, LARGEST + 1];

/// Bytes that are no digits: the blanks, signs of numbers, letters, and bytes of no text.
const MARKS: [u8; 24] = *b" \t\r+-.,_'eExO/:\0\x0b\x0c\x1a\x7f\x80\xa0\xb2\xff";

/// The entries of the table, each between its neighbours.
pub fn around_entries() -> Vec<u32> {
    table().iter().flat_map(|&entry| [entry - 1, entry, entry + 1]).collect()
}

/// The powers of two, each between its neighbours, up to the largest number of 32 bits.
pub fn around_powers_of_two() -> Vec<u32> {
    let powers = (0..32).map(|exponent| 1_u32 << exponent);
    powers.flat_map(|power| [power - 1, power, power + 1]).chain([u32::MAX - 1, u32::MAX]).collect()
}

/// A random factor; all tenths are met alike.
pub fn spread(random: &mut Random) -> u32 {
    let place = random.below(table().len());
    let below = place.checked_sub(1).map_or(0, |place| table()[place]);
    random.between(below as usize + 1, table()[place] as usize) as u32
}

/// Lines that are no number, and numbers that are written unusually.
pub fn odd_lines() -> Vec<Vec<u8>> {
    let marked = MARKS.into_iter().flat_map(marked);
    let others = [unusual_numbers(), around_2_to_the_32(), blank_lines()].concat();
    marked.chain(others.into_iter().map(String::into_bytes)).collect()
}

/// A number with a mark before it, behind it, around it and within it, and the mark alone and twice.
fn marked(mark: u8) -> [Vec<u8>; 7] {
    let mark = &[mark][..];
    [
        [mark, b"1000001"].concat(),
        [b"1000001", mark].concat(),
        [mark, b"1000001", mark].concat(),
        [b"1000", mark, b"001"].concat(),
        [b"1000001", mark, mark].concat(),
        mark.to_vec(),
        mark.repeat(2),
    ]
}

fn unusual_numbers() -> Vec<String> {
    let zeros =
        ["00", "000000000000", "-0", "+0", "- 0", "0x0", "0.0", "0 0", "\t0 ", "0\r", "00\r\r"];
    let numbers =
        ["01", "0001000", "00000000000001000001", "1e6", "1,000", "\t 5\t \r", "5 \r ", "1 2 3"];
    let words = ["silence", "refused 34", "?", "-600", "factor", "one", "٣", "１", "NaN", "inf"];
    [&zeros[..], &numbers, &words].concat().into_iter().map(String::from).collect()
}

/// Numbers that lack a few of 32 bits or pass them, among them those whose low bits are a factor.
fn around_2_to_the_32() -> Vec<String> {
    let most = u64::from(u32::MAX);
    let near = (most - 2..most + 4).flat_map(|number| [number.to_string(), format!("00{number}")]);
    let low_bits = EXAMPLES.into_iter().map(|factor| most + 1 + u64::from(factor));
    let wider = [1 << 33, 10 * (most + 1), 1 << 63, u64::MAX];
    let beyond = ["18446744073709551616", "18446744073710551616", "100000000000000000000000000000"];
    let numbers = low_bits.chain(wider).map(|number| number.to_string());
    near.chain(numbers).chain(beyond.map(String::from)).collect()
}

fn blank_lines() -> Vec<String> {
    ["", "\r", "\r\r", " ", "  ", "\t\t", " \t \r", " \r "].map(String::from).into()
}

/// Lines of about 256 bytes: zeros or blanks before a number, blanks behind one, digits alone, each
/// with a carriage return and without.
pub fn long_lines() -> Vec<Vec<u8>> {
    (LONGEST_LINE - 2..=LONGEST_LINE + 2).flat_map(lines_of).collect()
}

/// Lines of so many bytes, the carriage return among them.
pub fn lines_of(bytes: usize) -> Vec<Vec<u8>> {
    let of_end = |end: &'static str| {
        let filled = |fill: &str, number: &str| fill.repeat(bytes - end.len() - number.len());
        let lines = [
            filled("0", "1000") + "1000",
            filled(" ", "1001") + "1001",
            "999999".to_string() + &filled("\t", "999999"),
            filled(" ", ""),
            filled("4", ""),
        ];
        lines.map(|line| (line + end).into_bytes())
    };
    ["", "\r"].into_iter().flat_map(of_end).collect()
}

/// A random line: most are factors, some numbers of 32 bits, some odd lines.
pub struct RandomLines {
    random: Random,
    near: Vec<u32>,
    odd: Vec<Vec<u8>>,
}

impl RandomLines {
    /// The lines of a seed.
    pub fn new(seed: u64) -> RandomLines {
        let near = [around_entries(), around_powers_of_two()].concat();
        let odd = [odd_lines(), long_lines()].concat();
        RandomLines { random: Random::new(seed), near, odd }
    }
}

impl Iterator for RandomLines {
    type Item = Vec<u8>;

    fn next(&mut self) -> Option<Vec<u8>> {
        let random = &mut self.random;
        let line = match random.below(20) {
            0 => self.odd[random.below(self.odd.len())].clone(),
            1..=2 => random.pick(&self.near).to_string().into_bytes(),
            3 => (random.bits() as u32).to_string().into_bytes(),
            4 => format!("{:012}\t", spread(random)).into_bytes(),
            _ => spread(random).to_string().into_bytes(),
        };
        Some(line)
    }
}

/// An input of these lines, each with its end.
pub fn with_ends(lines: impl IntoIterator<Item = Vec<u8>>, end: &str) -> Vec<u8> {
    lines.into_iter().flat_map(|line| [&line, end.as_bytes()].concat()).collect()
}
