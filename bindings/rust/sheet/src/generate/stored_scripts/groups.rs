//! Choices of objects in groups, wholly included or not.

use super::{for_each, script, shown, StoredScript};

pub fn scripts() -> Vec<StoredScript> {
    vec![
        shown("group", "every-member", &["object 0", "object 1", "object 2", "object 3"]),
        shown("group", "the-active-member", &["object 3", "object 2", "object 2"]),
        shown("group", "one-member-alone-is-29", &["programme 1", "object 1", "object 3"]),
        shown("group", "the-leader-alone-is-29", &["programme 2", "object 3", "object 0"]),
        shown("group", "values-stay-with-their-objects", &VALUES_STAY),
        script("group", "objects-it-lacks-are-28", &LACKING),
        shown(
            "group-with-sets",
            "every-member",
            &["object 1", "object 0", "programme 1", "object 1"],
        ),
        shown("mixed", "an-object-in-no-group-is-29", &["object 1", "object 2", "object 1"]),
        shown("mixed", "a-child-is-28", &["programme 1", "object 4", "object 5", "object 3"]),
        shown("play", "narrators", &["object 2", "object 3", "object 1", "object 0", "object 4"]),
        shown("parent-in-group", "every-member", &["object 3", "object 1", "object 0", "object 2"]),
        script("full", "every-object", &for_each(0..=84, "object N")),
    ]
}

/// Gains of members, active or not, before and after the choice.
const VALUES_STAY: [&str; 6] =
    ["gain 0 -60", "gain 3 60", "object 0", "gain 3 0", "object 1", "object 3"];

const LACKING: [&str; 8] = [
    "object 4",
    "object 83",
    "object 84",
    "object 65535",
    "gain 4 0",
    "gain 84 0",
    "offset 65535 0",
    "state",
];
