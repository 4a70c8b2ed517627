//! Random gains, offsets, ranges and value sets that keep rules 6, 16, 17 and 18.

use crate::build::{ValueSet, Values, ABSENT, NO_RANGE, SILENCE};
use crate::generate::random::Random;

/// All gains, and all offsets: the bounds where there is no range.
const ALL_GAINS: (i16, i16) = (SILENCE, 210);
const ALL_OFFSETS: (i16, i16) = (-300, 300);

/// Values of an object, or of all members of a group.
pub fn object_values(random: &mut Random, interact: bool, offsets: bool) -> Values {
    let gain_range = if interact { range(random, gain_range) } else { NO_RANGE };
    let offset_range = if interact && offsets { range(random, offset_range) } else { NO_RANGE };
    let gain = random.chance(60).then(|| gain_in(random, bounds(gain_range, ALL_GAINS)));
    let offset = offsets && random.chance(60);
    let offset = offset.then(|| offset_in(random, bounds(offset_range, ALL_OFFSETS)));
    Values {
        gain: gain.unwrap_or(ABSENT),
        gain_range,
        offset: offset.unwrap_or(ABSENT),
        offset_range,
    }
}

/// A value set of an object with these values.
pub fn value_set(random: &mut Random, object: &Values, interact: bool, offsets: bool) -> ValueSet {
    let own = interact && random.chance(50);
    let gain_range = if own { range(random, gain_range) } else { NO_RANGE };
    let offset_range = if own && offsets { range(random, offset_range) } else { NO_RANGE };
    let gains = both(bounds(gain_range, ALL_GAINS), bounds(object.gain_range, ALL_GAINS));
    let offsets_of_both =
        both(bounds(offset_range, ALL_OFFSETS), bounds(object.offset_range, ALL_OFFSETS));
    let needs_gain = leaves(object.gain, gain_range);
    let needs_offset = leaves(object.offset, offset_range);
    let gain = (needs_gain || random.chance(60)).then(|| gain_in(random, gains));
    let offset = needs_offset || offsets && random.chance(60);
    let offset = offset.then(|| offset_in(random, offsets_of_both));
    let values = Values {
        gain: gain.unwrap_or(ABSENT),
        gain_range,
        offset: offset.unwrap_or(ABSENT),
        offset_range,
    };
    ValueSet { own: own.into(), values }
}

/// Whether the object's value lies outside the set's own range; an absent one is 0, which
/// every range holds.
fn leaves(value: i16, range: (i16, i16)) -> bool {
    range != NO_RANGE && value != ABSENT && !(range.0..=range.1).contains(&value)
}

fn bounds(range: (i16, i16), all: (i16, i16)) -> (i16, i16) {
    match range {
        NO_RANGE => all,
        _ => range,
    }
}

fn both(one: (i16, i16), other: (i16, i16)) -> (i16, i16) {
    (one.0.max(other.0), one.1.min(other.1))
}

/// A range in most cases.
fn range(random: &mut Random, present: fn(&mut Random) -> (i16, i16)) -> (i16, i16) {
    match random.chance(75) {
        true => present(random),
        false => NO_RANGE,
    }
}

fn gain_range(random: &mut Random) -> (i16, i16) {
    let minimum = random.value(-600, 0);
    let maximum = random.value(0, 210);
    (random.pick(&[SILENCE, -600, 0, minimum, minimum]), random.pick(&[0, 210, maximum]))
}

fn offset_range(random: &mut Random) -> (i16, i16) {
    let minimum = random.value(-300, 0);
    let maximum = random.value(0, 300);
    (random.pick(&[-300, 0, minimum]), random.pick(&[0, 300, maximum]))
}

/// A gain between two bounds, often one of them.
fn gain_in(random: &mut Random, (least, most): (i16, i16)) -> i16 {
    let between = random.value(least.max(-600), most);
    random.pick(&[least, most, 0, between, between])
}

/// An offset between two bounds, often one of them.
fn offset_in(random: &mut Random, (least, most): (i16, i16)) -> i16 {
    let between = random.value(least, most);
    random.pick(&[least, most, 0, between])
}
