//! Random contents, spans of value sets and programmes.

use super::objects::Unit;
use super::Budget;
use crate::build::{word, Plan};
use crate::generate::languages::lists::{QAA, REAL};
use crate::generate::random::Random;

/// Where the language words of a sheet come from.
#[derive(Clone, Copy)]
pub enum Codes {
    /// Any three letters.
    Any,
    /// The list of ISO 639-2.
    Real,
    /// qaa to qtz.
    Local,
}

impl Codes {
    /// Mostly any three letters.
    pub fn random(random: &mut Random) -> Codes {
        random.pick(&[Codes::Any, Codes::Any, Codes::Any, Codes::Real, Codes::Local])
    }

    fn any(self, random: &mut Random) -> u16 {
        let mut letter = |last| word(random.between(1, last));
        match self {
            Codes::Any => 1024 * letter(26) + 32 * letter(26) + letter(26),
            Codes::Real => u16::from_be_bytes(random.pick(REAL.as_chunks().0)),
            Codes::Local => QAA + 32 * (letter(20) - 1) + letter(26) - 1,
        }
    }

    /// Different languages, up to `most`.
    fn labels(self, random: &mut Random, most: usize) -> Vec<u16> {
        let number = if random.chance(20) { most } else { random.below(most + 1) };
        let mut labels: Vec<u16> = (0..number).map(|_| self.any(random)).collect();
        labels.sort();
        labels.dedup();
        random.shuffle(&mut labels);
        labels
    }
}

/// Adds a content for each top object, in a random order.
pub fn add_contents(
    random: &mut Random,
    plan: &mut Plan,
    units: &mut [Unit],
    budget: &Budget,
    codes: Codes,
) {
    let mut members: Vec<_> = units.iter_mut().flat_map(|unit| &mut unit.members).collect();
    random.shuffle(&mut members);
    for member in members {
        member.content = plan.add_content(member.object);
        let content = &mut plan.contents[usize::from(member.content)];
        content.language = codes.any(random);
        content.labels = codes.labels(random, budget.labels);
        content.loudness = word(random.between(1, 3));
    }
}

/// Adds the value sets of all top objects, in a random order of objects.
pub fn add_sets(random: &mut Random, plan: &mut Plan, units: &[Unit]) {
    let mut members: Vec<_> = units.iter().flat_map(|unit| &unit.members).collect();
    random.shuffle(&mut members);
    for member in members {
        let sets: Vec<_> = member.sets.iter().map(|&(_, set)| set).collect();
        plan.add_sets(member.object, &sets);
    }
}

/// Adds programmes; each unit is wholly included in at least one of them.
pub fn add_programmes(
    random: &mut Random,
    plan: &mut Plan,
    units: &[Unit],
    budget: &Budget,
    codes: Codes,
) {
    let number = random.between(1, budget.programmes);
    let whole_in: Vec<usize> = units.iter().map(|_| random.below(number)).collect();
    for index in 0..number {
        let programme = plan.add_programme(Vec::new());
        for (unit, &programme_with_all) in units.iter().zip(&whole_in) {
            include(random, plan, programme, unit, programme_with_all == index);
        }
        if plan.programmes[index].contents.is_empty() {
            let unit = &units[random.below(units.len())];
            include(random, plan, programme, unit, true);
        }
        let programme = &mut plan.programmes[index];
        random.shuffle(&mut programme.contents);
        random.shuffle(&mut programme.sets);
        programme.language = codes.any(random);
        programme.labels = codes.labels(random, budget.labels);
        programme.loudness = word(random.between(1, 3));
    }
}

/// Includes the whole unit, one member of it, or nothing.
fn include(random: &mut Random, plan: &mut Plan, programme: u16, unit: &Unit, wholly: bool) {
    let included: Vec<usize> = match random.below(3) {
        _ if wholly => (0..unit.members.len()).collect(),
        0 => (0..unit.members.len()).collect(),
        1 => vec![random.below(unit.members.len())],
        _ => return,
    };
    let whole_group = included.len() > 1;
    let common = random.below(unit.common_sets);
    let names_sets = random.chance(60) && !(whole_group && unit.common_sets == 0);
    for &member in &included {
        let member = &unit.members[member];
        let first = plan.objects[usize::from(member.object)].set_span.0;
        plan.programmes[usize::from(programme)].contents.push(member.content);
        if names_sets && !member.sets.is_empty() {
            let set = match whole_group {
                true => member.sets.iter().position(|(number, _)| *number == Some(common)),
                false => Some(random.below(member.sets.len())),
            };
            let set = set.map(|set| first + word(set));
            plan.programmes[usize::from(programme)].sets.extend(set);
        }
    }
}
