//! The host call against the second implementation.

use sheet::generate::frames::met::Met;
use sheet::generate::frames::{all, Listed, SMALL};
use sheet::second::frames::check;

/// How many random lists each seed has.
const OF_A_SEED: usize = 200_000;
/// How many random lists of each seed are lent in part.
const IN_PART: usize = 2_000;

/// Compares the numbers of both answers, 0 for acceptance.
fn compare(what: &str, frame: u32, numbers: &[u32]) {
    let proved = host::check_frame(frame, numbers).map_or_else(host::FrameError::number, |()| 0);
    let second = check(frame, numbers).map_or_else(|broken| broken.number(), |()| 0);
    assert!(
        proved == second,
        "{what}: proved {proved}, second {second}; frame {frame}, {} numbers: {:?}",
        numbers.len(),
        &numbers[..numbers.len().min(60)]
    );
}

#[test]
fn generated_lists() {
    let (mut met, mut lists) = (Met::default(), 0);
    for Listed { what, frame, numbers, .. } in all(OF_A_SEED) {
        compare(what, frame, &numbers);
        met.add(frame, &numbers);
        lists += 1;
    }
    let never_met = met.never_met();
    println!("{met}frame_check: {lists} lists, no difference, never met: {never_met:?}");
    assert_eq!(never_met, [""; 0], "a class was never met");
}

/// Lists without their first one to three numbers, and without their last one to four.
#[test]
fn parts_of_lists() {
    let lists: Vec<Listed> = all(IN_PART).filter(|list| list.what != SMALL).collect();
    for Listed { what, frame, numbers, .. } in &lists {
        for first in 1..numbers.len().min(4) {
            compare(what, *frame, &numbers[first..]);
        }
        for end in numbers.len().saturating_sub(4)..numbers.len() {
            compare(what, *frame, &numbers[..end]);
        }
    }
    println!("frame_check on parts of {} lists: no difference", lists.len());
}

#[test]
fn no_numbers_in_any_frame() {
    let powers = (0..32).map(|exponent| 1_u32 << exponent);
    let frames = powers.flat_map(|power| [power - 1, power, power.wrapping_neg()]);
    for frame in frames {
        assert_eq!(host::check_frame(frame, &[]), Err(host::FrameError::BadTotal), "{frame}");
    }
}
