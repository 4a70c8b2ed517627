//! Rule 22: the value sets that a programme names.

use super::least;
use crate::second::terms::{
    groups, has_twice, included_objects, is_wholly_included, named_sets, owners,
};
use crate::second::view::{programme, Place, Record, Sheet, PROGRAMME, VALUE_SET};

/// "A programme names a set of an object it doesn't include, two sets of one object (one
/// set twice counts as two), sets for some but not all of a wholly included group, or
/// sets in one group that differ in any of seven words."
pub fn rule_22(sheet: Sheet) -> Option<Place> {
    let owners = owners(sheet);
    let groups = groups(sheet);
    let bad = |programme: &Record| {
        let included = included_objects(programme);
        let named = named_sets(programme, &owners);
        let objects: Vec<usize> =
            programme.entries(programme::SETS).filter_map(|set| owners[set]).collect();
        objects.iter().any(|&object| !included[object])
            || has_twice(objects.iter().copied())
            || groups.iter().any(|group| {
                is_wholly_included(group, &included) && named_for_some_but_not_all(group, &named)
                    || sets_differ(sheet, group, &named)
            })
    };
    least(sheet.records(PROGRAMME).filter(bad))
}

fn named_for_some_but_not_all(group: &[usize], named: &[Option<usize>]) -> bool {
    let members = group.iter().filter(|&&member| named[member].is_some()).count();
    members > 0 && members < group.len()
}

fn sets_differ(sheet: Sheet, group: &[usize], named: &[Option<usize>]) -> bool {
    let mut sets =
        group.iter().filter_map(|&member| named[member]).map(|set| sheet.record(VALUE_SET, set));
    match sets.next() {
        None => false,
        Some(first) => sets.any(|set| !set.words().eq(first.words())),
    }
}
