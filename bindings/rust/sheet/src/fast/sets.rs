//! Rule 22: the value sets that a programme names.

use super::at;
use super::groups::group_size;
use super::lists::Totals;
use super::sections::{index, list, Programme, Sections};
use super::tables::Tables;
use crate::second::view::{content, object, programme, PROGRAMME};
use crate::second::Verdict;

pub fn rule_22(sheet: &Sections, totals: &Totals, tables: &mut Tables) -> Result<(), Verdict> {
    if totals.sets == 0 {
        return Ok(());
    }
    enter_owners(sheet, tables.spans);
    let bad = |(stamp, programme)| {
        list(programme, programme::SETS).count > 0 && sets_are_bad(sheet, tables, programme, stamp)
    };
    at(22, PROGRAMME, (1..).zip(sheet.programmes).position(bad))
}

/// Every set is in one span (rule 11), so has one owner.
pub fn enter_owners(sheet: &Sections, owners: &mut [u32]) {
    for (number, object) in (0..).zip(sheet.objects) {
        let span = list(object, object::SETS);
        owners[span.first..span.first + span.count].fill(number);
    }
}

fn sets_are_bad(sheet: &Sections, tables: &mut Tables, programme: &Programme, stamp: u32) -> bool {
    for content in sheet.entries(list(programme, programme::CONTENTS)) {
        tables.included[index(&sheet.contents[content], content::OBJECT)] = stamp;
    }
    let sets = sheet.entries(list(programme, programme::SETS));
    let stray = sets.clone().any(|set| !enters(sheet, tables, set, stamp));
    stray || sets.clone().any(|set| is_for_some_but_not_all(sheet, tables, set, stamp))
}

/// Enters a set for its object and group, unless the object isn't included or has a set
/// already, or the group has one that differs.
fn enters(sheet: &Sections, tables: &mut Tables, set: usize, stamp: u32) -> bool {
    let owner = tables.spans[set] as usize;
    if tables.included[owner] != stamp
        || std::mem::replace(&mut tables.named[owner], stamp) == stamp
    {
        return false;
    }
    let Some(leader) = (tables.leaders[owner] as usize).checked_sub(1) else { return true };
    if tables.sets.add(leader, stamp) == 1 {
        tables.first_sets[leader] = set as u32;
    }
    sheet.value_sets[tables.first_sets[leader] as usize] == sheet.value_sets[set]
}

/// Whether the set's group is wholly included, and not all of it have a set. A group of
/// which two are included is wholly included (rule 21).
fn is_for_some_but_not_all(sheet: &Sections, tables: &Tables, set: usize, stamp: u32) -> bool {
    let owner = tables.spans[set] as usize;
    let Some(leader) = (tables.leaders[owner] as usize).checked_sub(1) else { return false };
    let group = &sheet.objects[leader];
    let first_complement = list(group, object::COMPLEMENTS).first;
    let first_complement = index(&sheet.references[first_complement], 0);
    tables.sets.count(leader, stamp) < group_size(group)
        && tables.included[leader] == stamp
        && tables.included[first_complement] == stamp
}
