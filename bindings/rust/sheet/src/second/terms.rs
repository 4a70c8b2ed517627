//! The terms that document 01 defines between the sections and the rules.

use super::values::{Gain, Range};
use super::view::{
    content, object, pack, programme, value_set, Record, Sheet, CONTENT, NO_PACK, OBJECT, PACK,
    TRACK, VALUE_SET,
};

/// The kind of a pack of objects.
pub const KIND_OBJECTS: u16 = 3;
/// The kind of a pack of loudspeaker channels.
pub const KIND_DIRECT_SPEAKERS: u16 = 1;

/// How often each index below `length` is named.
pub fn namings(length: usize, names: impl Iterator<Item = usize>) -> Vec<u32> {
    let mut times = vec![0; length];
    for index in names {
        if let Some(number) = times.get_mut(index) {
            *number += 1;
        }
    }
    times
}

/// Whether any name, a word, comes twice.
pub fn has_twice(mut names: impl Iterator<Item = usize>) -> bool {
    let mut seen = vec![false; 65_536];
    names.any(|name| std::mem::replace(&mut seen[name], true))
}

/// Which of the indices below `length` are named at all.
fn mentioned(length: usize, names: impl Iterator<Item = usize>) -> Vec<bool> {
    namings(length, names).iter().map(|&times| times > 0).collect()
}

/// "A top object is one that a content names."
pub fn top_objects(sheet: Sheet) -> Vec<bool> {
    let names = sheet.records(CONTENT).map(|content| content.index_at(content::OBJECT));
    mentioned(sheet.count(OBJECT), names)
}

/// The pack of an object, where it has one.
pub fn pack_of<'a>(object: &Record<'a>) -> Option<Record<'a>> {
    let pack = object.word(object::PACK);
    (pack != NO_PACK).then(|| object.sheet().record(PACK, usize::from(pack)))
}

/// Whether the object has a pack of kind 3.
pub fn has_pack_of_kind_3(object: &Record) -> bool {
    pack_of(object).is_some_and(|pack| pack.word(pack::KIND) == KIND_OBJECTS)
}

/// Whether the object has children.
pub fn has_children(object: &Record) -> bool {
    object.list(object::CHILDREN).count > 0
}

/// "Its kind is its pack's, or 3 if it has children."
pub fn kind(object: &Record) -> Option<u16> {
    if has_children(object) {
        return Some(KIND_OBJECTS);
    }
    pack_of(object).map(|pack| pack.word(pack::KIND))
}

/// "A group is a leader (an object with complements) followed by those it lists."
pub fn groups(sheet: Sheet) -> Vec<Vec<usize>> {
    sheet
        .records(OBJECT)
        .filter(is_leader)
        .map(|leader| {
            let complements = leader.entries(object::COMPLEMENTS);
            std::iter::once(leader.index).chain(complements).collect()
        })
        .collect()
}

/// Whether the object has complements.
pub fn is_leader(object: &Record) -> bool {
    object.list(object::COMPLEMENTS).count > 0
}

/// "A programme includes the top objects of its contents."
pub fn included_objects(programme: &Record) -> Vec<bool> {
    let names = programme
        .named(programme::CONTENTS, CONTENT)
        .map(|content| content.index_at(content::OBJECT));
    mentioned(programme.sheet().count(OBJECT), names)
}

/// How many members of a group a programme includes.
pub fn included_members(group: &[usize], included: &[bool]) -> usize {
    group.iter().filter(|&&member| included[member]).count()
}

/// "A group is wholly included if all its members are."
pub fn is_wholly_included(group: &[usize], included: &[bool]) -> bool {
    included_members(group, included) == group.len()
}

/// The top objects that are neither leader nor complement.
pub fn single_objects(sheet: Sheet) -> Vec<usize> {
    let in_group = mentioned(sheet.count(OBJECT), groups(sheet).into_iter().flatten());
    let top = top_objects(sheet);
    (0..sheet.count(OBJECT)).filter(|&object| top[object] && !in_group[object]).collect()
}

/// "An object's size is its track count, or its children's added up."
pub fn size(object: &Record) -> usize {
    if has_children(object) {
        let children = object.named(object::CHILDREN, OBJECT);
        return children.map(|child| child.list(object::TRACKS).count).sum();
    }
    object.list(object::TRACKS).count
}

/// For each value set the object whose span it is in.
pub fn owners(sheet: Sheet) -> Vec<Option<usize>> {
    let mut owners = vec![None; sheet.count(VALUE_SET)];
    for object in sheet.records(OBJECT) {
        for set in object.sets() {
            owners[set.index] = Some(object.index);
        }
    }
    owners
}

/// For each object the value set that the programme names for it.
pub fn named_sets(programme: &Record, owners: &[Option<usize>]) -> Vec<Option<usize>> {
    let mut named = vec![None; programme.sheet().count(OBJECT)];
    for set in programme.entries(programme::SETS) {
        if let Some(owner) = owners[set] {
            named[owner] = Some(set);
        }
    }
    named
}

/// What holds for an object under a value set, or under none.
pub struct Effective {
    /// The effective gain.
    pub gain: Gain,
    /// The effective offset.
    pub offset: i16,
    /// The effective gain range.
    pub gain_range: Option<Range<Gain>>,
    /// The effective offset range.
    pub offset_range: Option<Range<i16>>,
}

/// "For a set, the effective gain and offset are its own, else the object's, else 0; its
/// effective ranges are its own four words where own is 1, else the object's."
pub fn effective(object: &Record, set: Option<&Record>) -> Effective {
    let of_object = object.values();
    let of_set = set.map(|set| set.values());
    let own_gain = of_set.and_then(|values| values.gain());
    let own_offset = of_set.and_then(|values| values.offset());
    let ranges = match set {
        Some(set) if set.word(value_set::OWN) == 1 => set.values(),
        _ => of_object,
    };
    Effective {
        gain: own_gain.or(of_object.gain()).unwrap_or(Gain::Tenths(0)),
        offset: own_offset.or(of_object.offset()).unwrap_or(0),
        gain_range: ranges.gain_range(),
        offset_range: ranges.offset_range(),
    }
}

/// The tracks that an object lists.
pub fn tracks_of<'a>(object: &Record<'a>) -> impl Iterator<Item = Record<'a>> {
    object.named(object::TRACKS, TRACK)
}
