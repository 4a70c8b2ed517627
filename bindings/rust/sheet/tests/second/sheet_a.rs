//! Sheet A and the cases (a) to (m), typed in from document 01 by hand.

use sheet::build::{bytes, Plan};
use sheet::second::{check, code, Verdict};

const A: [u16; 52] = [
    1, 1, 1, 16, 1, 24, 1, 29, 1, 45, 1, 48, 2, 50, 0, 52, // header
    5575, 0, 1, 0, 0, 0, 0, 1, // programme
    5575, 0, 0, 0, 1, // content
    0, 1, 1, 0, 0, 0, 0, 0, 32767, 32767, 32767, 32767, 32767, 32767, 0, 0, // object
    1, 1, 0, // pack
    0, 0, // track
    0, 0, // references
];

/// "The table of cases lends one with `eng`" (document 02, L2): 5575.
const ENG: [u8; 2] = [21, 199];

/// Positions of words in A.
const LEVEL: usize = 1;
const CONTENT_LOUDNESS: usize = 28;
const INTERACT: usize = 36;
const GAIN: usize = 37;
const GAIN_MINIMUM: usize = 38;
const GAIN_MAXIMUM: usize = 39;
const OFFSET: usize = 40;
const PACK_KIND: usize = 45;
const FRONT: usize = 47;
const ORDINAL: usize = 49;

/// A with some words changed to signed values.
fn a_with(changes: &[(usize, i16)]) -> Vec<u8> {
    let mut words = A;
    for &(position, value) in changes {
        words[position] = value as u16;
    }
    bytes(&words)
}

fn broken(rule: u8, section: u8, record: u16) -> Verdict {
    Verdict::Broken { rule, section, record }
}

#[test]
fn a_is_accepted_and_prints_so() {
    assert_eq!(check(&bytes(&A), &ENG), Verdict::Accepted);
    assert_eq!(check(&bytes(&A), &ENG).to_string(), "accepted");
    assert_eq!(code(check(&bytes(&A), &ENG)), 0);
}

#[test]
fn the_builder_lays_out_a() {
    assert_eq!(Plan::sheet_a().words(), A);
}

#[test]
fn b_ordinal_1() {
    let verdict = check(&a_with(&[(ORDINAL, 1)]), &ENG);
    assert_eq!(verdict.to_string(), "rule 14 section 3 record 0");
    assert_eq!(code(verdict), 14_300_000);
}

#[test]
fn c_no_bytes() {
    assert_eq!(check(&[], &ENG), broken(1, 0, 0));
    assert_eq!(code(check(&[], &ENG)), 1_000_000);
}

#[test]
fn d_103_bytes() {
    assert_eq!(check(&bytes(&A)[..103], &ENG), broken(1, 0, 0));
}

#[test]
fn e_without_the_last_word() {
    assert_eq!(check(&bytes(&A[..51]), &ENG), broken(3, 7, 0));
    assert_eq!(code(check(&bytes(&A[..51]), &ENG)), 3_700_000);
}

#[test]
fn f_level_3() {
    assert_eq!(check(&a_with(&[(LEVEL, 3)]), &ENG), broken(2, 0, 0));
}

#[test]
fn g_content_loudness_0() {
    assert_eq!(check(&a_with(&[(CONTENT_LOUDNESS, 0)]), &ENG), broken(6, 2, 0));
}

#[test]
fn h_offset_at_its_least() {
    let sheet = a_with(&[(PACK_KIND, 3), (FRONT, 1), (OFFSET, -300)]);
    assert_eq!(check(&sheet, &ENG), Verdict::Accepted);
}

#[test]
fn i_offset_below_its_least() {
    let sheet = a_with(&[(PACK_KIND, 3), (FRONT, 1), (OFFSET, -301)]);
    assert_eq!(check(&sheet, &ENG), broken(6, 3, 0));
}

#[test]
fn j_offset_0_in_a() {
    assert_eq!(check(&a_with(&[(OFFSET, 0)]), &ENG), broken(17, 3, 0));
}

/// A with interact 1, range -60 to 60 and the gain.
fn a_with_range_and_gain(gain: i16) -> Vec<u8> {
    a_with(&[(INTERACT, 1), (GAIN_MINIMUM, -60), (GAIN_MAXIMUM, 60), (GAIN, gain)])
}

#[test]
fn k_gain_at_the_end_of_its_range() {
    assert_eq!(check(&a_with_range_and_gain(60), &ENG), Verdict::Accepted);
}

#[test]
fn l_gain_above_its_range() {
    assert_eq!(check(&a_with_range_and_gain(61), &ENG), broken(18, 3, 0));
}

#[test]
fn m_gain_silence_below_its_range() {
    assert_eq!(check(&a_with_range_and_gain(-32768), &ENG), broken(18, 3, 0));
}
