//! Rules 16 to 18: ranges, offsets and gains of objects and their sets.
//!
//! Words are compared as signed numbers: silence, -32768, is then below every gain, and
//! absent, 32767, is a maximum that nothing exceeds.

use super::sections::{list, word, Object, Sections, ValueSet};
use super::{at, lowest};
use crate::second::values::{Values, ABSENT};
use crate::second::view::{object, pack, value_set, OBJECT, VALUE_SET};
use crate::second::Verdict;

/// The gain, offset and range words of an object.
#[inline(always)]
pub fn values_of_object(object: &Object) -> Values {
    values(object, object::VALUES)
}

/// The gain, offset and range words of a value set.
#[inline(always)]
pub fn values_of_set(set: &ValueSet) -> Values {
    values(set, value_set::VALUES)
}

/// Written out, as the words are read in every set.
#[inline(always)]
fn values<const BYTES: usize>(record: &[u8; BYTES], fields: [usize; 6]) -> Values {
    let [a, b, c, d, e, f] = fields;
    let at = |field| word(record, field);
    Values::from_words([at(a), at(b), at(c), at(d), at(e), at(f)])
}

pub fn rule_16(sheet: &Sections) -> Result<(), Verdict> {
    let bad = |object: &Object| {
        word(object, object::INTERACT) == 0
            && (values_of_object(object).has_range()
                || sheet.sets_of(object).iter().any(|set| word(set, value_set::OWN) == 1))
    };
    at(16, OBJECT, sheet.objects.iter().position(bad))
}

pub fn rule_17(sheet: &Sections) -> Result<(), Verdict> {
    let bad = |object: &Object| {
        values_of_object(object).has_offset_or_offset_range() && !is_on_front(sheet, object)
    };
    at(17, OBJECT, sheet.objects.iter().position(bad))?;
    let sets = sheet.objects.iter().filter(|object| !is_on_front(sheet, object));
    let has_offset = |set: &ValueSet| values_of_set(set).has_offset_or_offset_range();
    at(17, VALUE_SET, first_set(sheet, sets, |_| has_offset))
}

fn is_on_front(sheet: &Sections, object: &Object) -> bool {
    sheet.has_pack_of_kind_3(object)
        && sheet.pack_of(object).is_some_and(|pack| word(pack, pack::FRONT) == 1)
}

/// The lowest bad set of the objects; what is bad may depend on the object.
fn first_set<'a, Bad: Fn(&ValueSet) -> bool>(
    sheet: &Sections,
    objects: impl Iterator<Item = &'a Object>,
    bad: impl Fn(&'a Object) -> Bad,
) -> Option<usize> {
    let mut lowest_so_far = None;
    for object in objects {
        let sets = sheet.sets_of(object);
        if !sets.is_empty() {
            let first = list(object, object::SETS).first;
            let place = sets.iter().position(bad(object)).map(|place| first + place);
            lowest_so_far = lowest([lowest_so_far, place]);
        }
    }
    lowest_so_far
}

pub fn rule_18(sheet: &Sections) -> Result<(), Verdict> {
    at(18, OBJECT, sheet.objects.iter().position(object_leaves))?;
    at(18, VALUE_SET, first_set(sheet, sheet.objects.iter(), set_leaves))
}

fn object_leaves(object: &Object) -> bool {
    gain_range(object).is_left_by(start(word(object, object::GAIN)))
        || offset_range(object).is_left_by(start(word(object, object::OFFSET)))
}

fn set_leaves(object: &Object) -> impl Fn(&ValueSet) -> bool {
    let gain = Inherited { start: start(word(object, object::GAIN)), range: gain_range(object) };
    let offset =
        Inherited { start: start(word(object, object::OFFSET)), range: offset_range(object) };
    move |set| {
        let is_own = word(set, value_set::OWN) == 1;
        let range =
            |minimum, maximum| is_own.then(|| Bounds::of(word(set, minimum), word(set, maximum)));
        let gains = range(value_set::GAIN_MINIMUM, value_set::GAIN_MAXIMUM);
        let offsets = range(value_set::OFFSET_MINIMUM, value_set::OFFSET_MAXIMUM);
        gain.is_left_by(word(set, value_set::GAIN), gains)
            || offset.is_left_by(word(set, value_set::OFFSET), offsets)
    }
}

fn gain_range(object: &Object) -> Bounds {
    Bounds::of(word(object, object::GAIN_MINIMUM), word(object, object::GAIN_MAXIMUM))
}

fn offset_range(object: &Object) -> Bounds {
    Bounds::of(word(object, object::OFFSET_MINIMUM), word(object, object::OFFSET_MAXIMUM))
}

/// What an object has where a set has nothing of its own: a start value and a range.
struct Inherited {
    start: i16,
    range: Bounds,
}

impl Inherited {
    /// Whether a set's gain or offset leaves its own range or this one.
    #[inline(always)]
    fn is_left_by(&self, own: u16, own_range: Option<Bounds>) -> bool {
        let effective = if own == ABSENT { self.start } else { own as i16 };
        own_range.unwrap_or(self.range).is_left_by(effective)
            || own != ABSENT && self.range.is_left_by(own as i16)
    }
}

/// "Absent is 0."
fn start(word: u16) -> i16 {
    if word == ABSENT {
        0
    } else {
        word as i16
    }
}

/// The bounds of a range; an absent one bounds nothing.
#[derive(Clone, Copy)]
struct Bounds {
    minimum: i16,
    maximum: i16,
}

impl Bounds {
    #[inline(always)]
    fn of(minimum: u16, maximum: u16) -> Bounds {
        let minimum = if minimum == ABSENT { i16::MIN } else { minimum as i16 };
        Bounds { minimum, maximum: maximum as i16 }
    }

    #[inline(always)]
    fn is_left_by(&self, value: i16) -> bool {
        value < self.minimum || value > self.maximum
    }
}
