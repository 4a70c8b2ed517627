//! Lines without a meaning, which change nothing.

use super::{script, StoredScript};

pub fn scripts() -> Vec<StoredScript> {
    vec![
        script("mixed", "unknown-words", &UNKNOWN_WORDS),
        script("mixed", "too-few-or-many-words", &WORDS),
        script("mixed", "numbers-out-of-range", &NUMBERS),
        script("mixed", "no-numbers", &NO_NUMBERS),
        script("mixed", "puts-without-a-meaning", &PUTS),
        script("mixed", "blanks-and-carriage-returns", &BLANKS),
        script("mixed", "signs-and-leading-zeros", &SIGNS_AND_ZEROS),
        script("mixed", "long-lines", &long_lines()),
        without_last_end(script(
            "mixed",
            "last-line-without-its-end",
            &["list", "programme 1", "list"],
        )),
    ]
}

fn without_last_end(script: StoredScript) -> StoredScript {
    let text = script.text.trim_end().to_string();
    StoredScript { text, ..script }
}

/// A line may have 256 bytes.
fn long_lines() -> Vec<String> {
    let padded = |line: &str, bytes: usize| format!("{line:bytes$}");
    vec![
        padded("list", 256),
        padded("list", 257),
        padded("", 256),
        padded("", 257),
        format!("programme {:0246}", 1),
        format!("programme {:0247}", 2),
        "list ".repeat(1000),
        "state".to_string(),
    ]
}

const BLANKS: [&str; 14] = [
    " ",
    "\t",
    "\r",
    " list",
    "list ",
    "\tlist\t\t",
    "list\r",
    " list \r",
    "list\r ",
    "list\r\r",
    "list\0",
    "object  \t 2",
    "gain\t0\tsilence",
    "state",
];

const SIGNS_AND_ZEROS: [&str; 14] = [
    "programme +1",
    "programme -0",
    "object 002",
    "object 000065536",
    "gain 0 -0",
    "gain 0 -00060",
    "gain 0 --1",
    "gain 0 +5",
    "gain 0 5-",
    "gain 0 - 5",
    "offset 0 000000000000000000000000",
    "offset 0 0x1",
    "list 003",
    "state",
];

const UNKNOWN_WORDS: [&str; 8] =
    ["", "play", "Programme 1", "programmes 1", "lists", "LIST", "state", "list"];

const WORDS: [&str; 14] = [
    "programme",
    "programme 1 1",
    "object",
    "object 2 0",
    "gain",
    "gain 0",
    "gain 0 1 2",
    "offset 0",
    "offset 0 1 2",
    "list 1 2",
    "state 0",
    "open 0",
    "state",
    "list",
];

const NUMBERS: [&str; 14] = [
    "programme 65536",
    "programme -1",
    "programme 4294967296",
    "object 65536",
    "object 18446744073709551616",
    "gain 65536 0",
    "gain 0 32768",
    "gain 0 -32769",
    "offset 0 65535",
    "offset 0 -32769",
    "list 65",
    "list -1",
    "list 65536",
    "state",
];

const NO_NUMBERS: [&str; 10] = [
    "programme one",
    "programme 1a",
    "object silence",
    "gain 0 loud",
    "gain silence 0",
    "gain 0 -",
    "offset 0 silence",
    "offset 0 1.5",
    "list all",
    "state",
];

const PUTS: [&str; 13] = [
    "put",
    "put programme",
    "put programme 65536",
    "put object 84 active 0 0",
    "put object 0 on 0 0",
    "put object 0 active 0",
    "put object 0 active 0 0 0",
    "put object 0 active 32768 0",
    "put object 0 active 0 silence",
    "put object 0 active 0 -32769",
    "put gain 0 0",
    "state",
    "list",
];
