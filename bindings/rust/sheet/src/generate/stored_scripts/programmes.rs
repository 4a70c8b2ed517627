//! Choices of programmes.

use super::{for_each, script, shown, StoredScript};

pub fn scripts() -> Vec<StoredScript> {
    vec![
        shown("a", "the-only-programme", &["programme 0"]),
        script("a", "programmes-it-lacks", &["programme 1", "programme 65535", "state", "list"]),
        shown("mixed", "every-programme", &["programme 1", "programme 2", "programme 0"]),
        shown("mixed", "the-same-programme-again", &["programme 2", "programme 2"]),
        shown("play", "every-programme", &["programme 1", "programme 0"]),
        shown("play", "a-refused-choice-keeps-all", &["gain 4 -1", "object 3", "programme 2"]),
        shown("full", "every-number", &for_each(0..=16, "programme N")),
        shown("mixed", "sliders-are-not-carried-over", &SLIDERS),
        shown("mixed", "sliders-start-afresh-in-the-same-programme", &["gain 2 60", "programme 0"]),
        shown(
            "play",
            "a-group-starts-with-its-leader",
            &["object 2", "programme 1", "programme 0"],
        ),
    ]
}

/// Programme 2 grants object 0 other ranges than programme 0.
const SLIDERS: [&str; 7] = [
    "gain 0 -60",
    "offset 0 100",
    "programme 2",
    "gain 0 40",
    "offset 0 0",
    "programme 0",
    "programme 1",
];
