//! Clauses of rule 6.

use super::bases::{all_words, interactive_with_set, set_with_ranges};
use super::Clause;
use crate::build::{overwrite, ABSENT, NO_RANGE, SILENCE};
use crate::second::view::{
    content, object, pack, programme, value_set, CONTENT, OBJECT, PACK, PROGRAMME, VALUE_SET,
};

/// What, field, accepted word and broken word.
type Change = (&'static str, usize, i16, i16);

const PROGRAMMES: [Change; 9] = [
    ("programme language first letter 0", programme::LANGUAGE, 1057, 33),
    ("programme language second letter 0", programme::LANGUAGE, 1057, 1025),
    ("programme language third letter 0", programme::LANGUAGE, 1057, 1056),
    ("programme language first letter 27", programme::LANGUAGE, 27482, 28506),
    ("programme language second letter 27", programme::LANGUAGE, 27482, 27514),
    ("programme language third letter 27", programme::LANGUAGE, 27482, 27483),
    ("programme language above 15 bits", programme::LANGUAGE, 5575, 5575 - 32767 - 1),
    ("programme loudness 0", programme::LOUDNESS, 1, 0),
    ("programme loudness 4", programme::LOUDNESS, 3, 4),
];

const CONTENTS: [Change; 3] = [
    ("content language", content::LANGUAGE, 1057, 1056),
    ("content loudness 0", content::LOUDNESS, 1, 0),
    ("content loudness 4", content::LOUDNESS, 3, 4),
];

const OBJECTS: [Change; 1] = [("interact 2", object::INTERACT, 1, 2)];

const PACKS: [Change; 4] = [
    ("kind 0", pack::KIND, 3, 0),
    ("kind 2", pack::KIND, 3, 2),
    ("kind 4", pack::KIND, 3, 4),
    ("front 2", pack::FRONT, 1, 2),
];

const SETS: [Change; 1] = [("own 2", value_set::OWN, 1, 2)];

/// The six words that objects and value sets have alike.
#[derive(Clone, Copy)]
enum Word {
    Gain,
    GainMinimum,
    GainMaximum,
    Offset,
    OffsetMinimum,
    OffsetMaximum,
}

/// What, word, accepted value and broken value, for an object and for a value set.
const VALUES: [(&str, Word, i16, i16); 20] = [
    ("gain -601", Word::Gain, -600, -601),
    ("gain 211", Word::Gain, 210, 211),
    ("gain -32767", Word::Gain, SILENCE, -32767),
    ("gain minimum -601", Word::GainMinimum, -600, -601),
    ("gain minimum 1", Word::GainMinimum, 0, 1),
    ("gain maximum -1", Word::GainMaximum, 0, -1),
    ("gain maximum 211", Word::GainMaximum, 210, 211),
    ("gain maximum silence", Word::GainMaximum, 0, SILENCE),
    ("gain minimum alone", Word::GainMaximum, 210, ABSENT),
    ("gain maximum alone", Word::GainMinimum, 0, ABSENT),
    ("offset -301", Word::Offset, -300, -301),
    ("offset 301", Word::Offset, 300, 301),
    ("offset -32768", Word::Offset, 0, SILENCE),
    ("offset minimum -301", Word::OffsetMinimum, -300, -301),
    ("offset minimum 1", Word::OffsetMinimum, 0, 1),
    ("offset minimum -32768", Word::OffsetMinimum, 0, SILENCE),
    ("offset maximum -1", Word::OffsetMaximum, 0, -1),
    ("offset maximum 301", Word::OffsetMaximum, 300, 301),
    ("offset minimum alone", Word::OffsetMaximum, 300, ABSENT),
    ("offset maximum alone", Word::OffsetMinimum, 0, ABSENT),
];

/// Clauses of rule 6.
pub fn clauses() -> Vec<Clause> {
    let tables: [(u8, &[Change]); 5] = [
        (PROGRAMME, &PROGRAMMES),
        (CONTENT, &CONTENTS),
        (OBJECT, &OBJECTS),
        (PACK, &PACKS),
        (VALUE_SET, &SETS),
    ];
    let of_words = tables.into_iter().flat_map(|(section, changes)| {
        changes.iter().map(move |&(what, field, accepted, broken)| {
            of_word(what, section, field, (accepted, broken))
        })
    });
    of_words
        .chain(values("object", OBJECT, object::VALUES))
        .chain(values("set", VALUE_SET, value_set::VALUES))
        .chain(labels())
        .chain(own_0_with_range())
        .collect()
}

fn values(record: &str, section: u8, fields: [usize; 6]) -> Vec<Clause> {
    let clause = |&(what, word, accepted, broken): &(&str, Word, i16, i16)| {
        let name = format!("{record} {what}");
        of_word(&name, section, fields[word as usize], (accepted, broken))
    };
    VALUES.iter().map(clause).collect()
}

fn of_word(what: &str, section: u8, field: usize, (accepted, broken): (i16, i16)) -> Clause {
    let mut neighbour = all_words().words();
    overwrite(&mut neighbour, section, 0, field, accepted as u16);
    Clause::of_words((6, what), (section, 0), neighbour, |words| {
        overwrite(words, section, 0, field, broken as u16)
    })
}

fn labels() -> [Clause; 2] {
    // "e", no letter, "g".
    const SECOND_LETTER_0: u16 = 5127;
    [
        Clause::of_plan((6, "programme label"), (1, 0), all_words(), |plan| {
            plan.programmes[0].labels.push(SECOND_LETTER_0)
        }),
        Clause::of_plan((6, "content label"), (2, 0), all_words(), |plan| {
            plan.contents[0].labels.insert(0, SECOND_LETTER_0)
        }),
    ]
}

fn own_0_with_range() -> [Clause; 2] {
    let with_ranges = |what, gain_range, offset_range| {
        let neighbour = interactive_with_set(set_with_ranges(gain_range, offset_range));
        Clause::of_plan((6, what), (VALUE_SET, 0), neighbour, |plan| plan.value_sets[0].own = 0)
    };
    [
        with_ranges("own 0 with a gain range", (-10, 10), NO_RANGE),
        with_ranges("own 0 with an offset range", NO_RANGE, (-10, 10)),
    ]
}
