//! Two plans as one sheet: what one breaks is broken in both, at a moved place.

use super::clauses::{common_list, Clause};
use super::languages::lists;
use super::random::Random;
use super::{accepted, Generated};
use crate::build::{word, Plan};
use crate::second::Verdict;

/// A plan that breaks a rule, or none, at a place.
struct Part {
    plan: Plan,
    broken: Option<(u8, (u8, u16))>,
}

/// A clause's broken plan beside a random accepted one; none where the clause is about
/// limits or layout.
pub fn clause_beside_accepted(random: &mut Random, clause: &Clause) -> Option<Generated> {
    let level = word(random.below(3));
    let plan = match level {
        0 => accepted::plan(random, 0),
        _ => accepted::small_plan(random, level),
    };
    let name = format!("{} beside an accepted sheet", clause.name());
    let parts = [Part { plan, broken: None }, part(clause)?];
    Some(generated(name, in_any_order(random, parts), level))
}

/// Two clauses in one sheet, not both of rule 5: the lower rule is broken first.
pub fn two_clauses(random: &mut Random, one: &Clause, other: &Clause) -> Option<Generated> {
    if one.rule == 5 && other.rule == 5 {
        return None;
    }
    let level = word(random.below(3));
    let name = format!("{} and {}", one.name(), other.name());
    let parts = in_any_order(random, [part(one)?, part(other)?]);
    Some(generated(name, parts, level))
}

fn part(clause: &Clause) -> Option<Part> {
    let plan = clause.combinable.clone()?;
    Some(Part { plan, broken: Some((clause.rule, clause.place)) })
}

/// Exchanges the parts in half of the cases. A part that breaks rule 5 comes last, as the
/// index that its section lacks could name a record that comes later.
fn in_any_order(random: &mut Random, [one, other]: [Part; 2]) -> [Part; 2] {
    let last = |part: &Part| part.broken.is_some_and(|(rule, _)| rule == 5);
    let exchanged = random.chance(50);
    match last(&one) || exchanged && !last(&other) {
        true => [other, one],
        false => [one, other],
    }
}

fn generated(name: String, [first, second]: [Part; 2], level: u16) -> Generated {
    let moved = records(&first.plan);
    let of_second = second.broken.map(|(rule, (section, record))| {
        (rule, (section, record + word(moved[usize::from(section)])))
    });
    let least = first.broken.into_iter().chain(of_second).min();
    let expected = least.map_or(Verdict::Accepted, |(rule, (section, record))| Verdict::Broken {
        rule,
        section,
        record,
    });
    let sheet = Plan { level, ..beside(&first.plan, &second.plan) }.bytes();
    let words = lists::words(&common_list()).into_iter().chain(lists::held(&sheet));
    Generated { name, langs: lists::of(words), sheet, expected: Some(expected) }
}

/// The number of records in each section but the header and 6, which are no places here.
fn records(plan: &Plan) -> [usize; 8] {
    [
        0,
        plan.programmes.len(),
        plan.contents.len(),
        plan.objects.len(),
        plan.packs.len(),
        plan.tracks.len(),
        0,
        plan.value_sets.len(),
    ]
}

/// The records of `first`, then those of `second` with their indices moved.
fn beside(first: &Plan, second: &Plan) -> Plan {
    let [_, _, contents, objects, packs, tracks, _, sets] = records(first);
    let move_all = |list: &mut Vec<u16>, by| list.iter_mut().for_each(|index| move_by(index, by));
    let mut plan = first.clone();
    plan.programmes.extend(second.programmes.iter().cloned().map(|mut programme| {
        move_all(&mut programme.contents, contents);
        move_all(&mut programme.sets, sets);
        programme
    }));
    plan.contents.extend(second.contents.iter().cloned().map(|mut content| {
        move_by(&mut content.object, objects);
        content
    }));
    plan.objects.extend(second.objects.iter().cloned().map(|mut object| {
        move_by(&mut object.pack, packs);
        move_all(&mut object.tracks, tracks);
        move_all(&mut object.children, objects);
        move_all(&mut object.complements, objects);
        move_by(&mut object.set_span.0, sets);
        object
    }));
    plan.packs.extend(&second.packs);
    plan.tracks.extend(second.tracks.iter().copied().map(|mut track| {
        move_by(&mut track.pack, packs);
        track
    }));
    plan.value_sets.extend(&second.value_sets);
    plan.shares_entries |= second.shares_entries;
    plan
}

/// Moves an index, but not 65535, which no section has.
fn move_by(index: &mut u16, by: usize) {
    if *index != 65535 {
        *index += word(by);
    }
}
