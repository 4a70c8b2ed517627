//! Rules 13 and 15: packs and children of an object, and what only a top object may have.

use super::at;
use super::sections::{has_children, is_leader, list, word, Object, Sections};
use super::tables::{Tables, TOP};
use super::values::values_of_object;
use crate::second::view::{object, NO_PACK, OBJECT};
use crate::second::Verdict;

/// No object is a child twice (rule 11), so the child lists are short together.
pub fn rule_13(sheet: &Sections) -> Result<(), Verdict> {
    let bad = |object: &Object| {
        let has_pack = word(object, object::PACK) != NO_PACK;
        has_pack == has_children(object) || has_bad_child(sheet, object)
    };
    at(13, OBJECT, sheet.objects.iter().position(bad))
}

fn has_bad_child(sheet: &Sections, object: &Object) -> bool {
    let mut children = sheet.entries(list(object, object::CHILDREN));
    children.any(|child| !sheet.has_pack_of_kind_3(&sheet.objects[child]))
}

pub fn rule_15(sheet: &Sections, tables: &Tables) -> Result<(), Verdict> {
    let mut objects = sheet.objects.iter().zip(&*tables.names);
    at(15, OBJECT, objects.position(|(object, &names)| names != TOP && is_more_than_child(object)))
}

fn is_more_than_child(object: &Object) -> bool {
    is_leader(object)
        || word(object, object::INTERACT) == 1
        || list(object, object::SETS).count > 0
        || values_of_object(object).has_any()
}
