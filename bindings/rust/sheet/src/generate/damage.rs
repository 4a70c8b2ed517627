//! Random damage to accepted sheets; the verdict isn't known by construction.

mod plans;

use self::plans::damage_plan;
use super::random::Random;
use crate::build::{bytes, overwrite, word, Plan};
use crate::second::view::{content, object, programme, CONTENT, OBJECT, PROGRAMME, RECORD_WORDS};

/// Damages a sheet in its records, its words, its lists or its length.
pub fn damaged(plan: Plan, random: &mut Random) -> Vec<u8> {
    match random.below(8) {
        0..=3 => damage_plan(random, plan).bytes(),
        4..=5 => bytes(&damage_words(random, plan.words())),
        6 => bytes(&damage_lists(random, plan.words())),
        _ => damage_length(random, plan.bytes()),
    }
}

/// Changes up to three words.
fn damage_words(random: &mut Random, mut words: Vec<u16>) -> Vec<u16> {
    for _ in 0..random.between(1, 3) {
        let first = if random.chance(20) { 0 } else { 16 };
        let position = random.between(first, words.len() - 1);
        let before = words[position];
        let other = words[random.below(words.len())];
        let small = word(random.below(64));
        let any = random.word();
        let near = [before.wrapping_add(1), before.wrapping_sub(1), other, other];
        let fixed = [0, 1, 2, 3, 32767, 32768, 65535, small, small, any];
        words[position] = match random.chance(50) {
            true => random.pick(&near),
            false => random.pick(&fixed),
        };
    }
    words
}

/// Moves some lists and spans, most of them to places inside their section.
fn damage_lists(random: &mut Random, mut words: Vec<u16>) -> Vec<u16> {
    let lists = [
        (PROGRAMME, programme::CONTENTS),
        (PROGRAMME, programme::SETS),
        (PROGRAMME, programme::LABELS),
        (CONTENT, content::LABELS),
        (OBJECT, object::TRACKS),
        (OBJECT, object::CHILDREN),
        (OBJECT, object::COMPLEMENTS),
        (OBJECT, object::SETS),
    ];
    for _ in 0..random.between(1, 4) {
        let (section, field) = random.pick(&lists);
        let target = if (section, field) == (OBJECT, object::SETS) { 14 } else { 12 };
        let length = usize::from(words[target]);
        let first = random.between(0, length);
        let most = (length - first).min(5) + usize::from(random.chance(10));
        let record = random.below(usize::from(words[2 * usize::from(section)]));
        overwrite(&mut words, section, record, field, word(first));
        overwrite(&mut words, section, record, field + 1, word(random.between(0, most)));
    }
    words
}

/// Sections without gaps, of random records.
pub fn random_records(random: &mut Random) -> Vec<u8> {
    let mut words = vec![1, word(random.below(3))];
    let mut end = RECORD_WORDS[0];
    for size in &RECORD_WORDS[1..] {
        let count = random.below(5);
        words.extend([word(count), word(end)]);
        end += size * count;
    }
    let values = [0, 0, 0, 1, 1, 2, 3, 5575, 32767, 32767, 32768, 65535];
    words.extend((16..end).map(|_| random.pick(&values)));
    bytes(&words)
}

/// Cuts the sheet, or adds bytes to it.
fn damage_length(random: &mut Random, mut sheet: Vec<u8>) -> Vec<u8> {
    match random.below(4) {
        0 => sheet.truncate(random.below(40)),
        1 => sheet.truncate(random.below(sheet.len())),
        2 => sheet.truncate(sheet.len() - 2 * random.between(1, 9)),
        _ => sheet.extend((0..random.between(1, 9)).map(|byte| byte as u8)),
    }
    sheet
}
