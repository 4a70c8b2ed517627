//! The sections of a sheet as slices of records, and rules 1 to 3.

use super::at_section;
use crate::second::terms::KIND_OBJECTS;
use crate::second::view::{
    object, pack, List, HEADER, NO_PACK, PROGRAMME, RECORD_WORDS, VALUE_SET,
};
use crate::second::Verdict;

/// The bytes of a programme.
pub type Programme = [u8; 16];
/// The bytes of a content.
pub type Content = [u8; 10];
/// The bytes of an object.
pub type Object = [u8; 32];
/// The bytes of a pack.
pub type Pack = [u8; 6];
/// The bytes of a track.
pub type Track = [u8; 4];
/// The bytes of an entry of section 6.
pub type Reference = [u8; 2];
/// The bytes of a value set.
pub type ValueSet = [u8; 14];

/// The level, and the records of each section.
pub struct Sections<'a> {
    pub level: u16,
    pub programmes: &'a [Programme],
    pub contents: &'a [Content],
    pub objects: &'a [Object],
    pub packs: &'a [Pack],
    pub tracks: &'a [Track],
    pub references: &'a [Reference],
    pub value_sets: &'a [ValueSet],
}

/// The word of a field.
#[inline(always)]
pub fn word<const BYTES: usize>(record: &[u8; BYTES], field: usize) -> u16 {
    u16::from_be_bytes([record[2 * field], record[2 * field + 1]])
}

/// The word of a field, as an index.
#[inline(always)]
pub fn index<const BYTES: usize>(record: &[u8; BYTES], field: usize) -> usize {
    usize::from(word(record, field))
}

/// The list or span at a field.
#[inline(always)]
pub fn list<const BYTES: usize>(record: &[u8; BYTES], field: usize) -> List {
    List { first: index(record, field), count: index(record, field + 1) }
}

impl<'a> Sections<'a> {
    /// The sections of a sheet that keeps rules 1 to 3.
    pub fn split(bytes: &'a [u8]) -> Result<Sections<'a>, Verdict> {
        at_section(1, HEADER, bytes.len() > 65_534 || bytes.len() % 2 == 1)?;
        let Some((header, mut rest)) = bytes.split_first_chunk::<32>() else {
            return Err(Verdict::Broken { rule: 1, section: HEADER, record: 0 });
        };
        at_section(2, HEADER, word(header, 0) != 1 || word(header, 1) > 2)?;
        rule_3(header, bytes.len())?;
        let count = |section: usize| index(header, 2 * section);
        Ok(Sections {
            level: word(header, 1),
            programmes: take(&mut rest, count(1)),
            contents: take(&mut rest, count(2)),
            objects: take(&mut rest, count(3)),
            packs: take(&mut rest, count(4)),
            tracks: take(&mut rest, count(5)),
            references: take(&mut rest, count(6)),
            value_sets: take(&mut rest, count(7)),
        })
    }

    /// The entries of a list, as indices.
    #[inline(always)]
    pub fn entries(&self, list: List) -> impl Iterator<Item = usize> + Clone + 'a {
        let entries = &self.references[list.first..list.first + list.count];
        entries.iter().map(|entry| index(entry, 0))
    }

    /// The value sets of an object.
    pub fn sets_of(&self, object: &Object) -> &'a [ValueSet] {
        let span = list(object, object::SETS);
        &self.value_sets[span.first..span.first + span.count]
    }

    /// The pack of an object, where it has one.
    pub fn pack_of(&self, object: &Object) -> Option<&'a Pack> {
        let pack = word(object, object::PACK);
        (pack != NO_PACK).then(|| &self.packs[usize::from(pack)])
    }

    /// Whether the object has a pack of kind 3.
    pub fn has_pack_of_kind_3(&self, object: &Object) -> bool {
        self.pack_of(object).is_some_and(|pack| word(pack, pack::KIND) == KIND_OBJECTS)
    }
}

/// Whether the object has children.
pub fn has_children(object: &Object) -> bool {
    list(object, object::CHILDREN).count > 0
}

/// Whether the object has complements.
pub fn is_leader(object: &Object) -> bool {
    list(object, object::COMPLEMENTS).count > 0
}

fn rule_3(header: &[u8; 32], length: usize) -> Result<(), Verdict> {
    let mut end = RECORD_WORDS[usize::from(HEADER)];
    for section in PROGRAMME..=VALUE_SET {
        let field = 2 * usize::from(section);
        at_section(3, section, index(header, field + 1) != end)?;
        end += RECORD_WORDS[usize::from(section)] * index(header, field);
    }
    at_section(3, VALUE_SET, 2 * end != length)
}

/// Takes so many records from the front of the rest.
fn take<'a, const BYTES: usize>(rest: &mut &'a [u8], count: usize) -> &'a [[u8; BYTES]] {
    let (section, after) = rest.split_at(BYTES * count);
    *rest = after;
    section.as_chunks().0
}
