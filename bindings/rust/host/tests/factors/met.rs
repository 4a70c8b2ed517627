//! Which answers the factors met.

use std::collections::BTreeMap;

use sheet::second::factors::TENTHS;
use sheet::second::values::Gain;

/// A gain, or a refusal's number.
pub type Answer = Result<Gain, u8>;

/// How many factors met each answer; those that have to be met stand at 0 from the start.
pub struct Met(BTreeMap<Answer, usize>);

impl Default for Met {
    fn default() -> Met {
        let gains = TENTHS.map(Gain::Tenths).chain([Gain::Silent]).map(Ok);
        Met(gains.chain([Err(34)]).map(|answer| (answer, 0)).collect())
    }
}

impl Met {
    /// Adds the answer to so many factors.
    pub fn add(&mut self, answer: Answer, factors: usize) {
        *self.0.entry(answer).or_default() += factors;
    }

    /// Adds all that others met.
    pub fn add_all(&mut self, others: Met) {
        others.0.into_iter().for_each(|(answer, factors)| self.add(answer, factors));
    }

    /// How many factors there were.
    pub fn factors(&self) -> usize {
        self.0.values().sum()
    }

    /// How many answers there are.
    pub fn answers(&self) -> usize {
        self.0.len()
    }

    /// The answers that no factor met.
    pub fn never_met(&self) -> Vec<Answer> {
        let never = self.0.iter().filter(|(_, &factors)| factors == 0);
        never.map(|(&answer, _)| answer).collect()
    }
}
