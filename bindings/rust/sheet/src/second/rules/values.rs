//! Rules 16 to 18: ranges, offsets and gains of objects and their sets.

use super::least;
use crate::second::terms::{effective, has_pack_of_kind_3, pack_of, Effective};
use crate::second::values::leaves;
use crate::second::view::{object, pack, value_set, Place, Record, Sheet, OBJECT};

/// "An object with interact 0 has a range, or a set with own 1."
pub fn rule_16(sheet: Sheet) -> Option<Place> {
    let bad = |object: &Record| {
        object.word(object::INTERACT) == 0
            && (object.values().has_range()
                || object.sets().any(|set| set.word(value_set::OWN) == 1))
    };
    least(sheet.records(OBJECT).filter(bad))
}

/// "An object, or a set of its, has an offset or offset range without a pack of kind 3
/// with front 1." "In 17 and 18 a breach by a set has the set as its place."
pub fn rule_17(sheet: Sheet) -> Option<Place> {
    let on_front = |object: &Record| {
        has_pack_of_kind_3(object)
            && pack_of(object).is_some_and(|pack| pack.word(pack::FRONT) == 1)
    };
    let breaching = sheet
        .records(OBJECT)
        .filter(|object| !on_front(object))
        .flat_map(|object| std::iter::once(object).chain(object.sets()))
        .filter(|record| record.values().has_offset_or_offset_range());
    least(breaching)
}

/// "An object's gain or offset (absent is 0) leaves its range, a set's effective one
/// leaves the effective range, or a set's own one leaves the object's range."
pub fn rule_18(sheet: Sheet) -> Option<Place> {
    let objects =
        sheet.records(OBJECT).filter(|object| leaves_effective_range(&effective(object, None)));
    let sets = sheet
        .records(OBJECT)
        .flat_map(|object| object.sets().filter(move |set| set_leaves(&object, set)));
    least(objects.chain(sets))
}

fn set_leaves(object: &Record, set: &Record) -> bool {
    leaves_effective_range(&effective(object, Some(set))) || own_leaves_object_range(object, set)
}

fn leaves_effective_range(effective: &Effective) -> bool {
    leaves(effective.gain, &effective.gain_range)
        || leaves(effective.offset, &effective.offset_range)
}

fn own_leaves_object_range(object: &Record, set: &Record) -> bool {
    let of_object = object.values();
    let own_gain = set.values().gain();
    let own_offset = set.values().offset();
    own_gain.is_some_and(|gain| leaves(gain, &of_object.gain_range()))
        || own_offset.is_some_and(|offset| leaves(offset, &of_object.offset_range()))
}
