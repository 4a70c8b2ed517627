//! Openings, accepted and refused, and calls on sheets that are refused.

use super::{script, shown, StoredScript};

/// Every call, numbers that sheet A has.
const ALL_CALLS: [&str; 8] = [
    "state",
    "programme 0",
    "object 0",
    "gain 0 0",
    "gain 0 silence",
    "offset 0 0",
    "list",
    "list 1",
];

pub fn scripts() -> Vec<StoredScript> {
    vec![
        script::<&str>("a", "no-lines", &[]),
        script("a", "opened", &["state", "list"]),
        script("a", "every-call", &ALL_CALLS),
        shown("a", "opened-twice", &["open", "open"]),
        script("level-0", "every-call-is-25", &ALL_CALLS),
        script("level-0", "opened-again-is-25", &["open", "state", "list 0", "list 28"]),
        script("level-0", "25-before-26", &before_26()),
        script("level-0", "25-before-all-others", &WRONG_NUMBERS),
        script("not-accepted", "every-call-is-25", &ALL_CALLS),
        script("not-accepted", "a-put-state-stays", &put_then_refused()),
        script("no-bytes", "every-call-is-25", &ALL_CALLS),
        script("no-bytes", "25-before-all-others", &WRONG_NUMBERS),
        shown("play", "opening-forgets-all-calls", &["programme 1", "gain 4 -300", "open"]),
    ]
}

/// Numbers and values that no sheet has.
const WRONG_NUMBERS: [&str; 6] = [
    "programme 65535",
    "object 65535",
    "gain 65535 -32768",
    "offset 65535 32767",
    "list 0",
    "list 64",
];

/// A state that is sound for no sheet, and calls on it.
fn before_26() -> Vec<&'static str> {
    let unsound = ["put programme 9", "put object 83 active 500 301", "state"];
    unsound.into_iter().chain(ALL_CALLS).collect()
}

/// Refused calls hand back the state they were given; a refused opening gives the resting one.
fn put_then_refused() -> Vec<&'static str> {
    vec![
        "put programme 3",
        "put object 5 active silence -7",
        "programme 0",
        "state",
        "object 0",
        "gain 0 0",
        "offset 0 0",
        "list",
        "state",
        "open",
        "state",
    ]
}
