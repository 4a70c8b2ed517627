//! Rule 18: "the value, then the bound".

use super::Figure;
use crate::second::values::{signed, Gain, ABSENT};
use crate::second::view::{object, value_set, Record, OBJECT};

/// What rule 18 tests, "in the rule's order".
#[derive(Clone, Copy, Debug, PartialEq, Eq, PartialOrd, Ord)]
pub enum Test {
    /// An object's value against its range.
    Object,
    /// A set's effective value against the effective range.
    Effective,
    /// A set's own value against the object's range.
    Own,
}

/// "Gain before offset."
#[derive(Clone, Copy, Debug, PartialEq, Eq, PartialOrd, Ord)]
pub enum Sort {
    /// Gain and gain range.
    Gain,
    /// Offset and offset range.
    Offset,
}

const SORTS: [Sort; 2] = [Sort::Gain, Sort::Offset];

/// "Minimum before maximum."
#[derive(Clone, Copy, Debug, PartialEq, Eq, PartialOrd, Ord)]
pub enum Bound {
    /// The value is below it.
    Minimum,
    /// The value is above it.
    Maximum,
}

/// A value that passes a bound.
#[derive(Clone, Copy, Debug, PartialEq, Eq)]
pub struct Clash {
    /// The test that it breaks.
    pub test: Test,
    /// The sort of the value.
    pub sort: Sort,
    /// Which bound it passes.
    pub bound: Bound,
    /// The value, under the record that has its word.
    pub value: Figure,
    /// The bound, under the record that has its word.
    pub limit: Figure,
}

impl Clash {
    /// "The value, then the bound."
    pub fn figures(&self) -> [Figure; 2] {
        [self.value, self.limit]
    }
}

/// The clashes of an object.
pub fn of_object(object: &Record) -> Vec<Clash> {
    SORTS.into_iter().flat_map(|sort| against(Test::Object, sort, object, object)).collect()
}

/// The clashes of a set of an object: the effective values first, then the set's own.
pub fn of_set(object: &Record, set: &Record) -> Vec<Clash> {
    let ranges = if set.word(value_set::OWN) == 1 { set } else { object };
    let has_effective = |sort| if words(set, sort).value == ABSENT { object } else { set };
    let effective = SORTS
        .into_iter()
        .flat_map(|sort| against(Test::Effective, sort, has_effective(sort), ranges));
    let own = SORTS.into_iter().flat_map(|sort| against(Test::Own, sort, set, object));
    effective.chain(own).collect()
}

/// The value of one record against the range of another. An absent value is 0, which lies in
/// every legal range; an absent range has no bounds.
fn against(test: Test, sort: Sort, of_value: &Record, of_range: &Record) -> Vec<Clash> {
    let value = words(of_value, sort).value;
    let Words { minimum, maximum, .. } = words(of_range, sort);
    let clash = |bound, limit| Clash {
        test,
        sort,
        bound,
        value: Figure::of_word(of_value, value),
        limit: Figure::of_word(of_range, limit),
    };
    let mut clashes = Vec::new();
    if value != ABSENT && minimum != ABSENT && is_below(sort, value, minimum) {
        clashes.push(clash(Bound::Minimum, minimum));
    }
    if value != ABSENT && maximum != ABSENT && is_below(sort, maximum, value) {
        clashes.push(clash(Bound::Maximum, maximum));
    }
    clashes
}

/// Silence is below every number.
fn is_below(sort: Sort, one: u16, other: u16) -> bool {
    match sort {
        Sort::Gain => Gain::from_word(one) < Gain::from_word(other),
        Sort::Offset => signed(one) < signed(other),
    }
}

/// The words of one sort in an object or a set.
struct Words {
    value: u16,
    minimum: u16,
    maximum: u16,
}

fn words(record: &Record, sort: Sort) -> Words {
    let fields = match (record.section, sort) {
        (OBJECT, Sort::Gain) => [object::GAIN, object::GAIN_MINIMUM, object::GAIN_MAXIMUM],
        (OBJECT, Sort::Offset) => [object::OFFSET, object::OFFSET_MINIMUM, object::OFFSET_MAXIMUM],
        (_, Sort::Gain) => [value_set::GAIN, value_set::GAIN_MINIMUM, value_set::GAIN_MAXIMUM],
        (_, Sort::Offset) => {
            [value_set::OFFSET, value_set::OFFSET_MINIMUM, value_set::OFFSET_MAXIMUM]
        }
    };
    let [value, minimum, maximum] = fields.map(|field| record.word(field));
    Words { value, minimum, maximum }
}
