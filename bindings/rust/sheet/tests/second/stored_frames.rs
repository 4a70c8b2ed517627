//! The stored inputs of block times: enough of them, small, each under its verdict.

use std::collections::HashSet;

use sheet::generate::frames::met::Met;
use sheet::generate::stored_frames::{files, inputs};
use sheet::second::frames::{check, check_input};

use super::stored::assert_stored;

/// What only long lists or many random ones meet.
const NOT_STORED: [&str; 2] = ["accepted: 10,000 zero lengths", "36: a sum far past 32 bits"];

#[test]
fn names_differ_and_tell_the_verdict() {
    let inputs = inputs();
    let names: HashSet<&str> = inputs.iter().map(|(name, _)| name.as_str()).collect();
    assert_eq!(names.len(), inputs.len());
    for (name, input) in &inputs {
        let start = match check_input(input).expect("there is a frame length") {
            Ok(()) => String::from("ok-"),
            Err(broken) => format!("r{}-", broken.number()),
        };
        assert!(name.starts_with(&start), "{name}: {start}");
    }
}

#[test]
fn there_are_enough_and_they_are_small() {
    let inputs = inputs();
    let bytes = |least: usize| inputs.iter().filter(|(_, input)| input.len() >= least).count();
    assert!((50..=90).contains(&inputs.len()), "{} inputs", inputs.len());
    assert_eq!([bytes(100), bytes(5_000), bytes(20_000)], [3, 2, 1]);
}

#[test]
fn every_class_is_met() {
    let mut met = Met::default();
    for (_, input) in inputs() {
        let numbers: Vec<u32> =
            input.as_chunks().0.iter().map(|number| u32::from_be_bytes(*number)).collect();
        if input.len().is_multiple_of(4) {
            assert_eq!(Some(check(numbers[0], &numbers[1..])), check_input(&input));
            met.add(numbers[0], &numbers[1..]);
        }
    }
    assert_eq!(met.never_met(), NOT_STORED);
}

#[test]
fn the_files_of_framestest_are_these_inputs() {
    assert_stored("framestest", files());
}
