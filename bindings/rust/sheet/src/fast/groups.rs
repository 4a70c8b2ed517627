//! Rules 19 to 21: complementary groups.

use super::at;
use super::lists::Totals;
use super::runs::{each_covered, first_with};
use super::sections::{has_children, index, is_leader, list, word, Object, Programme, Sections};
use super::tables::{Tables, TOP};
use crate::second::terms::KIND_OBJECTS;
use crate::second::view::{content, object, pack, programme, OBJECT, PROGRAMME};
use crate::second::Verdict;

/// Lists with more entries than there are objects name one twice.
pub fn rule_19(sheet: &Sections, totals: &Totals, tables: &mut Tables) -> Result<(), Verdict> {
    if totals.complements <= sheet.objects.len() && fill_leaders(sheet, tables) {
        return Ok(());
    }
    let lists = || sheet.objects.iter().map(|object| list(object, object::COMPLEMENTS));
    let mut times = vec![0_u32; sheet.objects.len()];
    each_covered(sheet.references, lists(), |object, lists| {
        times[object] = times[object].saturating_add(lists);
    });
    let bad = |entry| {
        let object = usize::from(entry);
        sheet.objects.get(object).is_none_or(|complement| {
            tables.names[object] != TOP || is_leader(complement) || times[object] > 1
        })
    };
    at(19, OBJECT, first_with(sheet.references, totals.complements, lists(), bad))
}

/// Enters the leader of each object in a group; stops at an object that can't be in it.
fn fill_leaders(sheet: &Sections, tables: &mut Tables) -> bool {
    let mut leaders = (1..).zip(sheet.objects).filter(|(_, object)| is_leader(object));
    leaders.all(|(number, leader)| {
        tables.leaders[number as usize - 1] = number;
        sheet.entries(list(leader, object::COMPLEMENTS)).all(|complement| {
            tables.names[complement] == TOP
                && !is_leader(&sheet.objects[complement])
                && std::mem::replace(&mut tables.leaders[complement], number) == 0
        })
    })
}

/// No object is a complement twice (rule 19), so the lists are short together.
pub fn rule_20(sheet: &Sections, totals: &Totals) -> Result<(), Verdict> {
    if totals.complements == 0 {
        return Ok(());
    }
    let bad = |leader: &Object| {
        let mut members = sheet.entries(list(leader, object::COMPLEMENTS));
        members.any(|member| differ(sheet, leader, &sheet.objects[member]))
    };
    at(20, OBJECT, sheet.objects.iter().position(bad))
}

fn differ(sheet: &Sections, leader: &Object, member: &Object) -> bool {
    // Interact, gain, offset and the range words stand side by side.
    let words = 2 * object::INTERACT..2 * object::SETS;
    leader[words.clone()] != member[words] || kind(sheet, leader) != kind(sheet, member)
}

fn kind(sheet: &Sections, object: &Object) -> Option<u16> {
    match has_children(object) {
        true => Some(KIND_OBJECTS),
        false => sheet.pack_of(object).map(|pack| word(pack, pack::KIND)),
    }
}

pub fn rule_21(sheet: &Sections, tables: &mut Tables) -> Result<(), Verdict> {
    if !has_large_group(sheet) {
        return Ok(());
    }
    let bad = |(stamp, programme)| includes_part_of_group(sheet, tables, programme, stamp);
    at(21, PROGRAMME, (1..).zip(sheet.programmes).position(bad))
}

/// Whether a group has more than two members: others can't be included in part.
pub fn has_large_group(sheet: &Sections) -> bool {
    sheet.objects.iter().any(|object| group_size(object) > 2)
}

/// The number of objects in the group of a leader.
pub fn group_size(leader: &Object) -> usize {
    1 + list(leader, object::COMPLEMENTS).count
}

fn includes_part_of_group(
    sheet: &Sections,
    tables: &mut Tables,
    programme: &Programme,
    stamp: u32,
) -> bool {
    let leaders = &*tables.leaders;
    let leader = |content: usize| {
        let leader = leaders[index(&sheet.contents[content], content::OBJECT)];
        (leader as usize).checked_sub(1)
    };
    let mut leaders = sheet.entries(list(programme, programme::CONTENTS)).filter_map(leader);
    for leader in leaders.clone() {
        tables.members.add(leader, stamp);
    }
    leaders.any(|leader| {
        let included = tables.members.count(leader, stamp);
        included > 1 && included < group_size(&sheet.objects[leader])
    })
}
