//! Rules 21 and 22 where programmes share long lists. The contents and the sets of one
//! programme are two windows over section 6; they move from programme to programme, so
//! that lists which differ little are not walked anew. The programmes come in the order
//! of their lists.

use super::groups::{group_size, has_large_group};
use super::lists::Totals;
use super::sections::{index, list, Programme, Sections};
use super::sets::enter_owners;
use super::tables::Tables;
use super::{at, lowest};
use crate::second::view::{content, programme, List, PROGRAMME};
use crate::second::Verdict;

pub fn rules_21_and_22(
    sheet: &Sections,
    totals: &Totals,
    tables: &mut Tables,
) -> Result<(), Verdict> {
    if totals.sets == 0 && !has_large_group(sheet) {
        return Ok(());
    }
    enter_owners(sheet, tables.spans);
    let mut choice = Choice::new(sheet, tables);
    let mut breaking = [None; 2];
    for number in by_lists(sheet.programmes) {
        let programme = &sheet.programmes[number];
        choice.slide_contents(list(programme, programme::CONTENTS));
        breaking[0] = lowest([breaking[0], (choice.in_part > 0).then_some(number)]);
        if breaking[1].is_none_or(|lowest| number < lowest) && choice.sets_are_bad(programme) {
            breaking[1] = Some(number);
        }
    }
    at(21, PROGRAMME, breaking[0])?;
    at(22, PROGRAMME, breaking[1])
}

/// The programmes in the order of their contents, then their sets.
fn by_lists(programmes: &[Programme]) -> impl Iterator<Item = usize> {
    let lists = |programme: &Programme| {
        [programme::CONTENTS, programme::SETS].map(|field| list(programme, field))
    };
    let key = |programme| lists(programme).map(|list| (list.first, list.count));
    let mut order: Vec<_> = programmes.iter().map(key).zip(0..).collect();
    order.sort_unstable();
    order.into_iter().map(|(_, number)| number)
}

/// What one programme includes and names.
struct Choice<'a> {
    sheet: &'a Sections<'a>,
    /// For each object of a group its leader, counted from 1.
    leaders: &'a [u32],
    /// For each set its object.
    owners: &'a [u32],
    /// For each set a number that it shares with its equals.
    classes: Vec<i64>,
    contents: List,
    sets: List,
    objects: Vec<Object>,
    /// At the index of each leader its group.
    groups: Vec<Group>,
    /// The number of sets of objects that aren't included.
    stray: usize,
    /// The number of objects with two sets or more.
    with_two: usize,
    /// The number of groups included in part.
    in_part: usize,
    /// The number of groups with sets for some but not all, or with sets that differ.
    uneven: usize,
}

#[derive(Clone, Default)]
struct Object {
    is_included: bool,
    sets: usize,
}

#[derive(Clone, Default)]
struct Group {
    included: usize,
    sets: usize,
    /// The classes of the sets, added up, and their squares.
    sum: i64,
    squares: i64,
}

impl<'a> Choice<'a> {
    fn new(sheet: &'a Sections, tables: &'a Tables) -> Choice<'a> {
        let nothing = List { first: 0, count: 0 };
        Choice {
            sheet,
            leaders: tables.leaders,
            owners: tables.spans,
            classes: classes(sheet),
            contents: nothing,
            sets: nothing,
            objects: vec![Object::default(); sheet.objects.len()],
            groups: vec![Group::default(); sheet.objects.len()],
            stray: 0,
            with_two: 0,
            in_part: 0,
            uneven: 0,
        }
    }

    fn slide_contents(&mut self, to: List) {
        let from = std::mem::replace(&mut self.contents, to);
        outside(from, to).for_each(|entry| self.count_content(entry, false));
        outside(to, from).for_each(|entry| self.count_content(entry, true));
    }

    /// More sets than contents are of objects that aren't included, or two of one.
    fn sets_are_bad(&mut self, programme: &Programme) -> bool {
        let to = list(programme, programme::SETS);
        if to.count > self.contents.count {
            return true;
        }
        let from = std::mem::replace(&mut self.sets, to);
        outside(from, to).for_each(|entry| self.count_set(entry, false));
        outside(to, from).for_each(|entry| self.count_set(entry, true));
        self.stray > 0 || self.with_two > 0 || self.uneven > 0
    }

    fn count_content(&mut self, entry: usize, comes: bool) {
        let content = &self.sheet.contents[index(&self.sheet.references[entry], 0)];
        let number = index(content, content::OBJECT);
        let object = &mut self.objects[number];
        object.is_included = comes;
        count(&mut self.stray, object.sets, !comes);
        self.change_group(number, |group| count(&mut group.included, 1, comes));
    }

    fn count_set(&mut self, entry: usize, comes: bool) {
        let set = index(&self.sheet.references[entry], 0);
        let number = self.owners[set] as usize;
        let object = &mut self.objects[number];
        self.with_two -= usize::from(object.sets > 1);
        count(&mut object.sets, 1, comes);
        self.with_two += usize::from(object.sets > 1);
        count(&mut self.stray, usize::from(!object.is_included), comes);
        let class = self.classes[set];
        self.change_group(number, |group| group.count_set(class, comes));
    }

    fn change_group(&mut self, object: usize, change: impl FnOnce(&mut Group)) {
        let Some(leader) = (self.leaders[object] as usize).checked_sub(1) else { return };
        let size = group_size(&self.sheet.objects[leader]);
        let group = &mut self.groups[leader];
        self.in_part -= usize::from(group.is_in_part(size));
        self.uneven -= usize::from(group.is_uneven(size));
        change(group);
        self.in_part += usize::from(group.is_in_part(size));
        self.uneven += usize::from(group.is_uneven(size));
    }
}

impl Group {
    fn count_set(&mut self, class: i64, comes: bool) {
        let sign = if comes { 1 } else { -1 };
        count(&mut self.sets, 1, comes);
        self.sum += sign * class;
        self.squares += sign * class * class;
    }

    fn is_in_part(&self, size: usize) -> bool {
        1 < self.included && self.included < size
    }

    /// Numbers are equal if the square of their sum is their number times their squares.
    fn is_uneven(&self, size: usize) -> bool {
        let for_some = 0 < self.sets && self.sets < size;
        self.included == size && for_some || self.sum * self.sum != self.sets as i64 * self.squares
    }
}

fn count(number: &mut usize, change: usize, comes: bool) {
    match comes {
        true => *number += change,
        false => *number -= change,
    }
}

/// The indices in a list that are not in another.
fn outside(list: List, other: List) -> impl Iterator<Item = usize> {
    let [end, other_end] = [list, other].map(|list| list.first + list.count);
    (list.first..end.min(other.first)).chain(other_end.max(list.first)..end)
}

fn classes(sheet: &Sections) -> Vec<i64> {
    let mut order: Vec<_> = sheet.value_sets.iter().zip(0_usize..).collect();
    order.sort_unstable();
    let mut classes = vec![0; order.len()];
    let mut class = 0;
    for pair in order.windows(2) {
        let [(set, _), (next, number)] = [pair[0], pair[1]];
        class += i64::from(set != next);
        classes[number] = class;
    }
    classes
}
