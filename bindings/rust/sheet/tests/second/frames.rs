//! Block times of a live frame, by the words of L5 of document 02.

use sheet::generate::frames::met::Met;
use sheet::generate::frames::{all, damaged, input, Listed};
use sheet::generate::random::Random;
use sheet::second::frames::Broken::{self, BadBlock, BadTotal, InitialisingNotFirst};
use sheet::second::frames::{check, check_input, line, most_blocks};

/// How many random lists each seed has.
const OF_A_SEED: usize = 60_000;

/// Fails unless these numbers have this verdict in this frame.
fn assert_verdict(frame: u32, numbers: &[u32], verdict: Result<(), Broken>) {
    assert_eq!(check(frame, numbers), verdict, "frame {frame}, {numbers:?}");
}

#[test]
fn accepted_lists() {
    let lists: [(u32, &[u32]); 9] = [
        (20_000, &[0, 20_000, 0]),
        (20_000, &[0, 5_000, 0, 5_000, 15_000, 0]),
        (20_000, &[7, 4_999, 1, 0, 5_000, 0, 5_000, 15_000, 0]),
        (20_000, &[0, 0, 0, 0, 20_000, 0, 20_000, 0, 0, 20_000, 0, 0]),
        (u32::MAX, &[0, u32::MAX, 0]),
        (u32::MAX, &[0, 1 << 31, 0, 1 << 31, (1 << 31) - 1, 0]),
        (0, &[0, 0, 0]),
        (0, &[0, 0, 1]),
        (0, &[4, 4, u32::MAX, 0, 0, 0]),
    ];
    for (frame, numbers) in lists {
        assert_verdict(frame, numbers, Ok(()));
    }
}

#[test]
fn an_initialising_block_not_first() {
    let lists: [&[u32]; 5] = [
        &[0, 10_000, 0, 10_000, 0, 1, 10_000, 10_000, 0],
        &[0, 0, 1, 0, 0, 1, 0, 20_000, 0],
        // behind a bad length, and with a number left over
        &[0, 4_999, 0, 4_999, 15_001, 0, 20_000, 0, 1],
        &[0, 20_000, 0, 20_000, 0, 2, 20_000],
        &[1, 20_000, 0, 20_000, 0, 1 << 31],
    ];
    for numbers in lists {
        assert_verdict(20_000, numbers, Err(InitialisingNotFirst));
    }
}

#[test]
fn bad_blocks() {
    let lists: [(u32, &[u32]); 12] = [
        (9_999, &[0, 5_000, 0, 5_000, 4_999, 0]),
        (5_001, &[0, 5_000, 0, 5_000, 1, 0]),
        (5_000, &[1, 5_000, 0]),
        (10_000, &[0, 5_000, 0, 4_999, 5_000, 0]),
        (10_000, &[0, 5_000, 0, 10_000, 5_000, 0]),
        (5_000, &[0, 5_000, 1, 5_000, 5_000, 0]),
        // exact sums: the third block starts at 2^32 and not at 0
        (5_000, &[0, 1 << 31, 0, 1 << 31, 1 << 31, 0, 0, 5_000, 0]),
        (5_000, &[0, 5_000, 0, 5_000]),
        (5_000, &[0, 5_000, 0, 5_000, 0]),
        (0, &[0]),
        (0, &[0, 0]),
        // the numbers left over make no block
        (0, &[0, 0, 0, 1, 1]),
    ];
    for (frame, numbers) in lists {
        assert_verdict(frame, numbers, Err(BadBlock));
    }
}

#[test]
fn bad_totals() {
    let lists: [(u32, &[u32]); 10] = [
        (0, &[]),
        (20_000, &[]),
        (20_000, &[0, 20_001, 0]),
        (20_000, &[0, 19_999, 0]),
        (4_999, &[0, 0, 0]),
        (0, &[0, 5_000, 0]),
        (5_000, &[0, 5_000, 1]),
        (10_000, &[0, 5_000, 1, 0, 5_000, 0]),
        // exact sums: 2^32 and 2^32 + 4,999
        (0, &[0, 1 << 31, 0, 1 << 31, 1 << 31, 0]),
        (4_999, &[0, 5_000, 0, 5_000, u32::MAX, 0]),
    ];
    for (frame, numbers) in lists {
        assert_verdict(frame, numbers, Err(BadTotal));
    }
}

#[test]
fn numbers_and_lines() {
    let lines = [Ok(()), Err(InitialisingNotFirst), Err(BadBlock), Err(BadTotal)].map(line);
    assert_eq!(lines, ["accepted\n", "rule 35\n", "rule 36\n", "rule 37\n"]);
}

/// Every generated list has the verdict that its construction settles, and every class is met.
#[test]
fn generated_lists() {
    let mut met = Met::default();
    for Listed { what, frame, numbers, expected } in all(OF_A_SEED) {
        let verdict = check(frame, &numbers);
        assert_eq!(expected.unwrap_or(verdict), verdict, "{what}: frame {frame}, {numbers:?}");
        met.add(frame, &numbers);
    }
    assert_eq!(met.never_met(), [""; 0], "met:\n{met}");
}

/// "The number of blocks is at most the frame length divided by 5,000, rounded down, plus 1 if it
/// has an initialising block, plus the number of zero lengths."
#[test]
fn accepted_lists_keep_the_bound() {
    let mut most = 0;
    for Listed { frame, numbers, .. } in all(OF_A_SEED) {
        if check(frame, &numbers).is_ok() {
            let (blocks, bound) = ((numbers.len() / 3) as u128, most_blocks(frame, &numbers));
            assert!(blocks <= bound, "{blocks} blocks, at most {bound}: {frame}, {numbers:?}");
            most += usize::from(blocks == bound);
        }
    }
    assert!(most > 1000, "{most} with as many blocks as may be");
}

/// Each start of an accepted list is the sum of all earlier lengths, added up for it alone, and the
/// frame that of all.
#[test]
fn accepted_lists_are_those_of_added_lengths() {
    for Listed { frame, numbers, .. } in all(OF_A_SEED).filter(|list| list.numbers.len() < 1000) {
        let (blocks, left_over) = numbers.as_chunks::<3>();
        let skipped = usize::from(blocks.first().is_some_and(|block| block[2] != 0));
        let plain = &blocks[skipped..];
        let sum = |blocks: &[[u32; 3]]| blocks.iter().map(|block| u128::from(block[1])).sum();
        let is_good = |(place, &[start, length, third]): (usize, &[u32; 3])| {
            third == 0 && matches!(length, 0 | 5_000..) && u128::from(start) == sum(&plain[..place])
        };
        let whole = left_over.is_empty() && !blocks.is_empty();
        let accepted = whole && plain.iter().enumerate().all(is_good);
        let accepted = accepted && sum(plain) == u128::from(frame);
        assert_eq!(accepted, check(frame, &numbers).is_ok(), "frame {frame}, {numbers:?}");
    }
}

/// An input has the verdict of its numbers, and none without a frame length.
#[test]
fn inputs() {
    for length in 0..4 {
        assert_eq!(check_input(&vec![0; length]), None, "{length} bytes");
    }
    for Listed { frame, numbers, .. } in all(100).filter(|list| list.numbers.len() < 1000) {
        let input = input(frame, &numbers);
        assert_eq!(check_input(&input), Some(check(frame, &numbers)), "frame {frame}, {numbers:?}");
    }
    let high_byte_first = [0, 0, 78, 32, 0, 0, 0, 0, 0, 0, 78, 32, 0, 0, 0, 0];
    assert_eq!(check_input(&high_byte_first), Some(Ok(())));
}

/// Bytes that are left over are a number left over, and never the last one of a whole block.
#[test]
fn inputs_with_bytes_left_over() {
    for list in damaged(&mut Random::new(35)) {
        let input = input(list.frame, &list.numbers);
        for length in 4..=input.len() {
            let (frame, blocks) = (list.frame, (length - 4) / 12);
            let left_over = if (length - 4).is_multiple_of(12) { 0 } else { 1 };
            let numbers = [&list.numbers[..3 * blocks], &vec![1; left_over]].concat();
            let verdict = check_input(&input[..length]);
            assert_eq!(verdict, Some(check(frame, &numbers)), "{length} bytes of {list:?}");
        }
    }
}
