//! Clauses of rules 1 to 3.

use super::Clause;
use crate::build::Plan;

/// Clauses of rules 1 to 3.
pub fn clauses() -> Vec<Clause> {
    [lengths(), versions(), offsets(), ends()].into_iter().flatten().collect()
}

fn lengths() -> Vec<Clause> {
    let a = || Plan::sheet_a().bytes();
    let largest = Plan::sheet_a().filled();
    let mut larger = largest.clone();
    larger.stray_entries.push(0);
    vec![
        Clause::of_bytes((1, "no bytes"), a(), |sheet| sheet.clear()),
        Clause::of_bytes((1, "30 bytes"), a(), |sheet| sheet.truncate(30)),
        Clause::of_bytes((1, "a byte less"), a(), |sheet| sheet.truncate(103)),
        Clause::of_bytes((1, "a byte more"), a(), |sheet| sheet.push(0)),
        Clause::of_plans((1, "65536 bytes"), (0, 0), largest, larger),
    ]
}

fn versions() -> Vec<Clause> {
    let changed = |what, position: usize, value| {
        let a = Plan::sheet_a().words();
        Clause::of_words((2, what), (0, 0), a, |words| words[position] = value)
    };
    vec![
        changed("edition 0", 0, 0),
        changed("edition 2", 0, 2),
        changed("edition 256", 0, 256),
        changed("level 3", 1, 3),
        changed("level 65535", 1, 65535),
    ]
}

fn offsets() -> Vec<Clause> {
    let moved = |section: u8, what: &str, by: fn(u16) -> u16| {
        let name = format!("offset of section {section} {what}");
        let a = Plan::sheet_a().words();
        let position = 2 * usize::from(section) + 1;
        Clause::of_words((3, &name), (section, 0), a, |words| words[position] = by(words[position]))
    };
    (1..=7)
        .flat_map(|section| {
            [
                moved(section, "too high", |offset| offset + 1),
                moved(section, "too low", |offset| offset - 1),
            ]
        })
        .collect()
}

fn ends() -> Vec<Clause> {
    let changed = |what, section, breach: fn(&mut Vec<u16>)| {
        let a = Plan::sheet_a().words();
        Clause::of_words((3, what), (section, 0), a, breach)
    };
    vec![
        changed("sheet ends before section 7", 7, |words| words.truncate(51)),
        changed("sheet ends after section 7", 7, |words| words.push(0)),
        changed("count of section 7 past the end", 7, |words| words[14] = 1),
        changed("count of section 1 too high", 2, |words| words[2] = 2),
        // 16 + 8 * 8193 is 24 above 65,536.
        changed("end past 16 bits", 2, |words| words[2] = 8193),
    ]
}
