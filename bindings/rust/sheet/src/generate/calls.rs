//! Random calls of a listener, and random changes to its state.

use super::random::Random;
use crate::build::{word, Plan, Values, SILENCE};
use crate::second::listener::{Answer, State, OBJECTS};
use crate::second::values::Gain;

/// A call that takes a state and hands it back.
#[derive(Clone, Copy, Debug, PartialEq, Eq)]
pub enum Call {
    /// Chooses a programme.
    ChooseProgramme(u16),
    /// Chooses an object.
    ChooseObject(u16),
    /// Sets the gain of an object.
    SetGain(u16, Gain),
    /// Sets the offset of an object.
    SetOffset(u16, i16),
}

impl Call {
    /// Makes the call on the second listener.
    pub fn make(self, state: State, sheet: &[u8], langs: &[u8]) -> (State, Answer) {
        match self {
            Call::ChooseProgramme(number) => state.choose_programme(sheet, langs, number.into()),
            Call::ChooseObject(object) => state.choose_object(sheet, langs, object.into()),
            Call::SetGain(object, gain) => state.set_gain(sheet, langs, object.into(), gain),
            Call::SetOffset(object, offset) => {
                state.set_offset(sheet, langs, object.into(), offset)
            }
        }
    }
}

/// A random call that suits the sheet, or almost suits it.
pub fn random_call(random: &mut Random, plan: &Plan) -> Call {
    let object = match random.chance(60) {
        true => plan.contents[random.below(plan.contents.len())].object,
        false => number(random, plan.objects.len()),
    };
    match random.below(10) {
        0 => Call::ChooseProgramme(number(random, plan.programmes.len())),
        1..=3 => Call::ChooseObject(object),
        4..=6 => Call::SetGain(object, random_gain(random, plan, object)),
        _ => Call::SetOffset(object, random_offset(random, plan, object)),
    }
}

/// A state with one word or flag changed, mostly to one that isn't sound.
pub fn changed_state(random: &mut Random, plan: &Plan, mut state: State) -> State {
    let number_of_object = match random.chance(10) {
        true => OBJECTS - 1 - random.below(2),
        false => random.below(plan.objects.len() + 2).min(OBJECTS - 1),
    };
    let object = &mut state.objects[number_of_object];
    match random.below(4) {
        0 => state.programme = number(random, plan.programmes.len()).into(),
        1 => object.active = !object.active,
        2 => object.gain = random_gain(random, plan, word(number_of_object)),
        _ => object.offset = random_offset(random, plan, word(number_of_object)),
    }
    state
}

/// A number of a record, now and then one that the section lacks.
fn number(random: &mut Random, length: usize) -> u16 {
    match random.below(50) {
        0 => random.word(),
        _ => word(random.below(length + 1)),
    }
}

/// The values of an object or one of its value sets, now and then of another.
fn any_values(random: &mut Random, plan: &Plan, object: u16) -> Values {
    let other = word(random.below(plan.objects.len()));
    let object = match plan.objects.get(usize::from(object)) {
        Some(record) if random.chance(80) => record,
        _ => &plan.objects[usize::from(other)],
    };
    let (first, count) = object.set_span;
    let sets = &plan.value_sets[usize::from(first)..][..usize::from(count)];
    match random.chance(50) && !sets.is_empty() {
        true => random.pick(sets).values,
        false => object.values,
    }
}

fn random_gain(random: &mut Random, plan: &Plan, object: u16) -> Gain {
    let (minimum, maximum) = any_values(random, plan, object).gain_range;
    let value = random_value(random, minimum, maximum, [-600, 210]);
    match value == SILENCE && random.chance(80) {
        true => Gain::Silent,
        false => Gain::Tenths(value),
    }
}

fn random_offset(random: &mut Random, plan: &Plan, object: u16) -> i16 {
    let (minimum, maximum) = any_values(random, plan, object).offset_range;
    random_value(random, minimum, maximum, [-300, 300])
}

/// A value at the ends of a range, one beyond them, or between the least and the most.
fn random_value(random: &mut Random, minimum: i16, maximum: i16, [least, most]: [i16; 2]) -> i16 {
    let between = random.value(least, most);
    let any = random.word() as i16;
    let ends = [minimum, maximum, minimum.saturating_sub(1), maximum.saturating_add(1)];
    let others = [between, between, 0, least - 1, most + 1, any];
    match random.chance(50) {
        true => random.pick(&ends),
        false => random.pick(&others),
    }
}
