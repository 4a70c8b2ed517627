//! Openings and calls that are lent other lists, and lines that lend.

use super::{script, shown, StoredScript};
use crate::build::{bytes, language};
use crate::generate::languages::lists::words;

pub fn scripts() -> Vec<StoredScript> {
    vec![
        with_list("empty.langs", script("a", "empty-list-is-25", &ALL_CALLS)),
        with_list("french.langs", script("a", "language-not-listed-is-25", &ALL_CALLS)),
        with_list("not-rising.langs", script("a", "falling-list-is-25", &ALL_CALLS)),
        with_list("twice.langs", script("a", "word-twice-is-25", &ALL_CALLS)),
        with_list("english.langs", script("a", "list-of-its-language", &ALL_CALLS)),
        with_list("english-and-a-byte.langs", script("a", "list-with-an-odd-byte", &ALL_CALLS)),
        with_list("not-rising.langs", script("no-bytes", "falling-list-is-25", &ALL_CALLS)),
        with_list("english.langs", script("mixed", "one-language-lacking", &ALL_CALLS)),
        with_list("english.langs", shown("a", "lent-others-then-its-own", &lent_to_a())),
        with_list("empty.langs", shown("a", "opened-once-its-list-is-lent", &opened_late())),
        script("mixed", "every-call-lent-other-lists", &every_call()),
        shown("mixed", "state-stays-while-refused", &state_stays()),
        script("mixed", "25-before-26-under-another-list", &before_26()),
        shown("play", "opened-again-under-another-list", &opened_again()),
        script("a", "lists-that-rise-or-not", &lists_of_a()),
        script("a", "lends-without-a-meaning", &without_meaning()),
    ]
}

fn with_list(langs: &'static str, script: StoredScript) -> StoredScript {
    StoredScript { langs, ..script }
}

/// Every call, numbers that the sheets have.
const ALL_CALLS: [&str; 9] = [
    "open",
    "state",
    "programme 0",
    "object 0",
    "gain 0 5",
    "offset 0 0",
    "list",
    "list 3",
    "state",
];

/// A line that lends the words.
fn lend(words: &[u16]) -> String {
    words.iter().fold("lend".to_string(), |line, word| format!("{line} {word}"))
}

/// A line that lends the codes, in this order.
fn lend_codes(codes: &[&str]) -> String {
    lend(&words(&bytes(&codes.iter().map(|code| language(code)).collect::<Vec<_>>())))
}

fn lines(lines: &[&str]) -> Vec<String> {
    lines.iter().map(|line| line.to_string()).collect()
}

fn lent_to_a() -> Vec<String> {
    vec![
        "programme 0".to_string(),
        lend_codes(&["deu", "fra"]),
        "programme 0".to_string(),
        lend_codes(&["deu", "eng", "fra"]),
        "programme 0".to_string(),
        lend(&[]),
        "programme 0".to_string(),
        lend_codes(&["eng"]),
        "programme 0".to_string(),
    ]
}

fn opened_late() -> Vec<String> {
    vec!["programme 0".to_string(), lend_codes(&["eng"]), "programme 0".into(), "open".into()]
}

/// Each call under a list that lacks a language, then under one that has both.
fn every_call() -> Vec<String> {
    let (lacking, both) = (lend_codes(&["eng"]), lend_codes(&["eng", "fra"]));
    let calls = ["programme 0", "object 2", "gain 0 60", "offset 0 -100", "list", "list 3", "open"];
    let each = calls.iter().flat_map(|call| [&lacking, *call, "state", &both, call, "state"]);
    each.map(String::from).collect()
}

/// Values set before other lists are lent are there when the sheet's own is lent again.
fn state_stays() -> Vec<String> {
    let mut all = lines(&["gain 0 60", "object 2"]);
    all.push(lend_codes(&["fra"]));
    all.extend(lines(&["gain 0 -60", "object 0", "programme 1"]));
    all.push(lend_codes(&["fra", "eng"]));
    all.extend(lines(&["offset 0 100", "programme 2"]));
    all.push(lend_codes(&["eng", "fra"]));
    all.extend(lines(&["gain 0 -60", "offset 0 100"]));
    all
}

/// A state that is sound for no sheet, under a list that lacks a language and under one that
/// doesn't.
fn before_26() -> Vec<String> {
    let mut all = lines(&["put programme 9"]);
    for list in [&["eng"][..], &["eng", "fra"], &["fra", "eng"], &["eng", "fra", "zxx"]] {
        all.push(lend_codes(list));
        all.extend(lines(&["programme 0", "object 0", "gain 0 0", "offset 0 0", "list"]));
    }
    all
}

/// An opening that is refused under another list gives the resting state.
fn opened_again() -> Vec<String> {
    let mut all = lines(&["programme 1", "gain 4 -300"]);
    all.push(lend_codes(&["deu", "eng", "fra"]));
    all.push("open".to_string());
    all.push(lend_codes(&["deu", "eng", "fra", "zxx"]));
    all.extend(lines(&["programme 1", "open"]));
    all
}

/// Lists for sheet A, each followed by a listing.
fn lists_of_a() -> Vec<String> {
    let eng = language("eng");
    let lists: [&[u16]; 16] = [
        &[eng],
        &[eng - 1, eng + 1],
        &[eng, eng],
        &[eng - 1, eng],
        &[eng, eng - 1],
        &[eng, eng + 1],
        &[0, eng, 65_535],
        &[0, 0, eng],
        &[eng, 65_535, 65_535],
        &[eng, 65_535, 0],
        &[eng + 32_768],
        &[eng, eng + 32_768],
        &[eng - 256, eng, eng + 256],
        &[eng - 256, eng, eng - 255],
        &[17_441, 18_074],
        &[17_441, eng],
    ];
    lists.into_iter().flat_map(|words| [lend(words), "list".to_string()]).collect()
}

/// Lines that lend nothing, after which the calls are lent what they were, and lists as long as a
/// line lends.
fn without_meaning() -> Vec<String> {
    let numbers = |last: u16| lend(&(1..=last).collect::<Vec<_>>());
    let mut all = lines(&[
        "lend eng",
        "lend 65536",
        "lend -1",
        "lend +1",
        "lend 5575 x",
        "lend 5575,5576",
        "lends 1",
        "lend 1.0",
        "Lend",
        "list",
    ]);
    all.extend([numbers(65), "list".to_string(), numbers(64), "list".to_string()]);
    all.extend(lines(&["lend 0005575", "list", "lend\t5575  ", "list", " lend", "list"]));
    // 256 bytes, and one more
    let longest = format!("lend {:0251}", 5575);
    all.extend([longest.clone(), "list".to_string(), "lend".to_string()]);
    all.extend([longest.replace("lend ", "lend 0"), "list".to_string(), "lend 5575\r".to_string()]);
    all.extend(lines(&["list", "lend \r", "list", "open", "state"]));
    all
}
