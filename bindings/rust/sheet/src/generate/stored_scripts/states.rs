//! States that were handed in from elsewhere, sound or not.

use super::{script, StoredScript};

pub fn scripts() -> Vec<StoredScript> {
    vec![
        script("mixed", "every-call-on-an-unsound-state-is-26", &EVERY_CALL),
        each_apart("mixed", "unsound-programmes", &["put programme 1", "put programme 65535"]),
        each_apart("mixed", "unsound-activity", &ACTIVITY),
        each_apart("mixed", "unsound-values", &VALUES),
        each_apart("mixed", "the-rest-is-not-at-rest", &REST),
        each_apart("mixed", "sound-values", &SOUND_VALUES),
        script("mixed", "another-member-is-sound", &ANOTHER_MEMBER),
        script("mixed", "the-start-of-another-programme-is-sound", &ANOTHER_START),
        each_apart("ranges", "start-values-and-others", &START_VALUES),
        script("a", "the-resting-state-is-unsound", &RESTING),
        each_apart("a", "put-back", &["put object 0 active 0 0", "put programme 0"]),
        script(
            "play",
            "an-opening-mends-a-state",
            &["put programme 7", "list", "open", "state", "list"],
        ),
        each_apart("group", "two-active-or-none", &TWO_OR_NONE),
        each_apart("full", "the-last-objects", &LAST_OBJECTS),
    ]
}

/// Each line on a fresh opening, followed by a listing, a call and the state.
fn each_apart(sheet: &str, name: &str, lines: &[&str]) -> StoredScript {
    let lines = lines.iter().flat_map(|line| ["open", line, "list", "programme 0", "state"]);
    script(sheet, name, &lines.collect::<Vec<_>>())
}

const EVERY_CALL: [&str; 10] = [
    "put object 83 inactive 0 1",
    "programme 1",
    "programme 9",
    "object 2",
    "object 84",
    "gain 0 0",
    "gain 1 500",
    "offset 0 301",
    "list 0",
    "state",
];

const ACTIVITY: [&str; 6] = [
    "put object 0 inactive 10 0",
    "put object 1 inactive -30 0",
    "put object 2 active 10 0",
    "put object 3 active 0 0",
    "put object 4 active 0 0",
    "put object 83 active 0 0",
];

const VALUES: [&str; 10] = [
    "put object 0 active 61 0",
    "put object 0 active -61 0",
    "put object 0 active silence 0",
    "put object 0 active -32768 0",
    "put object 0 active 10 101",
    "put object 0 active 10 -101",
    "put object 1 active 0 0",
    "put object 1 active -30 1",
    "put object 2 inactive 211 0",
    "put object 2 inactive 10 301",
];

const REST: [&str; 7] = [
    "put object 3 inactive 1 0",
    "put object 3 inactive silence 0",
    "put object 4 inactive 0 -1",
    "put object 5 inactive -1 0",
    "put object 6 inactive -32768 0",
    "put object 83 inactive 0 1",
    "put object 83 inactive 0 0",
];

const SOUND_VALUES: [&str; 5] = [
    "put object 0 active -60 100",
    "put object 0 active 60 -100",
    "put object 1 active -30 0",
    "put object 2 inactive 60 -100",
    "put object 2 inactive 0 0",
];

const ANOTHER_MEMBER: [&str; 9] = [
    "put object 0 inactive 10 0",
    "list",
    "put object 2 active 10 0",
    "list",
    "state",
    "object 0",
    "gain 2 -60",
    "state",
    "list",
];

/// Programme 1 includes objects 2 and 3.
const ANOTHER_START: [&str; 9] = [
    "put programme 1",
    "put object 0 inactive 0 0",
    "put object 1 inactive 0 0",
    "put object 2 active 20 0",
    "list",
    "put object 3 active silence 0",
    "list",
    "gain 3 -600",
    "state",
];

/// Values without a range are sound as they start only.
const START_VALUES: [&str; 10] = [
    "put object 0 active silence 300",
    "put object 0 active -601 0",
    "put object 1 active -600 0",
    "put object 1 active silence 0",
    "put object 3 active silence 0",
    "put object 3 active -32768 150",
    "put object 4 active 210 0",
    "put object 4 active 209 0",
    "put object 5 active -45 -300",
    "put object 5 active -45 -299",
];

const RESTING: [&str; 6] =
    ["put object 0 inactive 0 0", "state", "list", "programme 0", "open", "list"];

const TWO_OR_NONE: [&str; 4] = [
    "put object 0 active 10 0",
    "put object 3 inactive 10 0",
    "put object 3 active 60 0",
    "put object 1 inactive -60 0",
];

const LAST_OBJECTS: [&str; 4] = [
    "put object 83 inactive -60 0",
    "put object 83 active 0 0",
    "put object 82 inactive 0 1",
    "put object 81 inactive -1 0",
];
