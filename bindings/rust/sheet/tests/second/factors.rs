//! Gains of plain factors, by the words of L3 of document 02.

use sheet::factor_lines::{answer, answers};
use sheet::generate::factors::{
    around_entries, lines_of, long_lines, odd_lines, spread, RandomLines,
};
use sheet::generate::random::Random;
use sheet::second::factors::{gain_of_factor, keeps_rule, table, TooLarge, LARGEST, TENTHS};
use sheet::second::values::Gain;

#[test]
fn the_examples_of_the_request() {
    assert_eq!(gain_of_factor(0), Ok(Gain::Silent));
    for factor in 1..=1000 {
        assert_eq!(gain_of_factor(factor), Ok(Gain::Tenths(-600)), "{factor}");
    }
    let tenths = [(1001, -599), (1_000_000, 0), (1_000_001, 1), (LARGEST, 210)];
    for (factor, tenths) in tenths {
        assert_eq!(gain_of_factor(factor), Ok(Gain::Tenths(tenths)), "{factor}");
    }
    for factor in [11_220_185, 1 << 31, u32::MAX] {
        assert_eq!(gain_of_factor(factor), Err(TooLarge), "{factor}");
    }
    assert_eq!(TooLarge.number(), 34);
}

#[test]
fn entries_that_are_known_beforehand() {
    let tens = [(-600, 1000), (-400, 10_000), (-200, 100_000), (0, 1_000_000), (200, 10_000_000)];
    // 10 to the power d / 200: 1.01157.., 1.12201.., 1.41253.., 1.99526.., 3.16227.., 11.22018..
    let others = [(1, 1_011_579), (10, 1_122_018), (30, 1_412_537), (60, 1_995_262)];
    let last = [(100, 3_162_277), (-100, 316_227), (210, 11_220_184), (210, LARGEST)];
    for (tenth, entry) in [&tens[..], &others, &last].concat() {
        assert_eq!(table()[(tenth + 600) as usize], entry, "{tenth}");
    }
}

#[test]
fn entries_rise_and_there_are_811() {
    assert_eq!(table().len(), 811);
    assert_eq!(TENTHS.count(), 811);
    assert!(table().is_sorted_by(|one, next| one < next));
}

#[test]
fn each_entry_keeps_the_rule_and_the_next_number_breaks_it() {
    for (tenth, &entry) in TENTHS.zip(table()) {
        assert!(keeps_rule(entry, tenth), "{entry} for {tenth}");
        assert!(!keeps_rule(entry + 1, tenth), "{entry} + 1 for {tenth}");
    }
}

/// The least tenth at which the factor keeps the rule, by the rule alone.
#[test]
fn gains_follow_from_the_rule() {
    let mut random = Random::new(34);
    for factor in (0..60).map(|_| spread(&mut random)) {
        let Ok(Gain::Tenths(tenth)) = gain_of_factor(factor) else {
            panic!("{factor} has no tenth");
        };
        assert!(keeps_rule(factor, tenth), "{factor}");
        assert!(tenth == -600 || !keeps_rule(factor, tenth - 1), "{factor}");
    }
}

#[test]
fn lines_of_factors() {
    let lines = [
        ("0", "silence"),
        ("000", "silence"),
        ("1", "-600"),
        ("1001", "-599"),
        ("1000000", "0"),
        ("\t 0001000001 \r", "1"),
        ("11220184", "210"),
        ("11220185", "refused 34"),
        ("4294967295", "refused 34"),
        ("4294967296", "?"),
        ("4294968296", "?"),
        ("18446744073709551617", "?"),
    ];
    for (line, said) in lines {
        assert_eq!(answer(line.as_bytes()), said, "{line:?}");
    }
}

#[test]
fn lines_without_a_meaning() {
    let lines = ["", " ", "\r", "-1", "-0", "+1", "1 2", "1\r\r", "1\r ", "1\0", "1.0", "one", "٣"];
    for line in lines {
        assert_eq!(answer(line.as_bytes()), "?", "{line:?}");
    }
    assert_eq!(answer(b"1\xff"), "?");
    assert_eq!(answer(b"\xa01"), "?");
}

#[test]
fn lines_of_up_to_256_bytes() {
    let [mut longest, mut longer] = [256, 257].map(lines_of).map(Vec::into_iter);
    for end in ["", "\r"] {
        for said in ["-600", "-599", "0", "?", "?"] {
            let line = longest.next().expect("a line for each answer");
            assert_eq!(answer(&line), said, "{} bytes, end {end:?}", line.len());
            assert_eq!(longer.next().map(|line| answer(&line)).as_deref(), Some("?"));
        }
    }
    assert!(longest.chain(longer).next().is_none());
}

#[test]
fn every_line_has_an_answer_but_an_empty_last_one() {
    let inputs: [(&[u8], &str); 8] = [
        (b"", ""),
        (b"\n", "?\n"),
        (b"\n\n", "?\n?\n"),
        (b"0", "silence\n"),
        (b"0\n1", "silence\n-600\n"),
        (b"0\r\n1\r\n", "silence\n-600\n"),
        (b"0\r\n1\r", "silence\n-600\n"),
        (b"0\n\r", "silence\n?\n"),
    ];
    for (input, said) in inputs {
        assert_eq!(answers(input), said, "{input:?}");
    }
}

/// What the generated lines meet: entries and their neighbours, lines with a meaning and without.
#[test]
fn generated_lines_are_of_all_kinds() {
    assert_eq!(around_entries().len(), 3 * 811);
    for lines in [odd_lines(), long_lines(), RandomLines::new(1).take(5000).collect()] {
        let said: Vec<String> = lines.iter().map(|line| answer(line)).collect();
        let without = said.iter().filter(|said| *said == "?").count();
        assert!(without > 20 && said.len() - without > 10, "{without} of {}", said.len());
        assert!(lines.iter().all(|line| !line.contains(&b'\n')));
    }
}
