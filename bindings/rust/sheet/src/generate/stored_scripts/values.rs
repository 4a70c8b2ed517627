//! Gains and offsets at the limits of the ranges of objects and value sets.

use super::{for_each, script, shown, StoredScript};

pub fn scripts() -> Vec<StoredScript> {
    let mut scripts = ranges();
    scripts.extend(sets());
    scripts.extend(groups_and_others());
    scripts
}

/// Gains around every limit.
const GAINS: [&str; 14] = [
    "silence", "-32768", "-32767", "-601", "-600", "-599", "-1", "0", "1", "209", "210", "211",
    "500", "32767",
];
/// Offsets around every limit.
const OFFSETS: [i16; 13] = [-32768, -301, -300, -299, -1, 0, 1, 199, 200, 201, 300, 301, 32767];

fn ranges() -> Vec<StoredScript> {
    let gains = |object: usize| for_each(GAINS, &format!("gain {object} N"));
    let offsets = |object: usize| for_each(OFFSETS, &format!("offset {object} N"));
    vec![
        script("ranges", "widest-gains", &gains(0)),
        script("ranges", "gains-without-silence", &gains(1)),
        script("ranges", "gain-0-alone", &gains(2)),
        script("ranges", "gains-without-a-range-are-30", &gains(3)),
        script("ranges", "gains-that-stay-are-30", &gains(5)),
        script("ranges", "widest-offsets", &offsets(0)),
        script("ranges", "offset-0-alone", &offsets(2)),
        script("ranges", "offsets-of-a-range", &offsets(3)),
        script("ranges", "offsets-without-a-range-are-30", &offsets(4)),
        shown("ranges", "silence-sounds", &["gain 0 silence", "gain 0 -600"]),
        script("ranges", "28-before-30-and-31", &["gain 6 500", "offset 6 301", "object 6"]),
    ]
}

/// Values at the ends of every range of the sheet, and one beyond.
const ENDS: [&str; 20] = [
    "gain 0 -601",
    "gain 0 silence",
    "gain 0 -61",
    "gain 0 -60",
    "gain 0 -11",
    "gain 0 -10",
    "gain 0 30",
    "gain 0 31",
    "gain 0 60",
    "gain 0 61",
    "offset 0 -300",
    "offset 0 -101",
    "offset 0 -100",
    "offset 0 -61",
    "offset 0 -60",
    "offset 0 0",
    "offset 0 1",
    "offset 0 100",
    "offset 0 101",
    "state",
];

fn sets() -> Vec<StoredScript> {
    let names = [
        "no-set-named",
        "set-of-another-gain",
        "set-of-narrower-ranges",
        "set-of-wider-ranges",
        "set-without-ranges-is-30",
    ];
    let of_programme = |(programme, name): (usize, &&str)| {
        let choice = format!("programme {programme}");
        let lines: Vec<&str> = [choice.as_str(), "state"].into_iter().chain(ENDS).collect();
        script("sets", name, &lines)
    };
    names.iter().enumerate().map(of_programme).collect()
}

fn groups_and_others() -> Vec<StoredScript> {
    vec![
        shown("group-with-sets", "values-of-sets", &["gain 0 -40", "offset 1 50", "gain 1 41"]),
        shown("group-with-sets", "values-without-sets", &WITHOUT_SETS),
        shown("group-with-sets", "a-set-for-one-member-alone", &ONE_ALONE),
        shown("play", "rain-and-door", &RAIN_AND_DOOR),
        shown(
            "parent-in-group",
            "parents-have-gains",
            &["gain 0 silence", "gain 1 0", "gain 3 210"],
        ),
    ]
}

const WITHOUT_SETS: [&str; 4] = ["programme 1", "gain 0 -60", "offset 1 -100", "offset 0 101"];
const ONE_ALONE: [&str; 5] = ["programme 2", "gain 1 -41", "gain 1 40", "offset 1 -50", "gain 0 0"];
const RAIN_AND_DOOR: [&str; 9] = [
    "gain 4 -300",
    "gain 4 61",
    "gain 5 silence",
    "offset 5 1",
    "offset 5 -300",
    "programme 1",
    "gain 4 60",
    "offset 4 200",
    "gain 5 0",
];
