//! Which answers the calls of scripts met.

use std::fmt;

use super::{Line, Said};
use crate::generate::calls::Call;

/// Done, and the refusals 25 to 32.
const ANSWERS: usize = 9;

/// Each call with the refusals it can meet: "Opening can meet 25 only, a programme choice 25 to 27,
/// an object choice 25, 26, 28, 29, a gain or offset call 25, 26, 28, 30, 31, listing 25, 26, 32."
const CALLS: [(&str, &[u8]); 6] = [
    ("opening", &[25]),
    ("programme", &[25, 26, 27]),
    ("object", &[25, 26, 28, 29]),
    ("gain", &[25, 26, 28, 30, 31]),
    ("offset", &[25, 26, 28, 30, 31]),
    ("listing", &[25, 26, 32]),
];

/// How often each call met each answer.
#[derive(Default)]
pub struct Met([[usize; ANSWERS]; CALLS.len()]);

impl Met {
    /// Adds what was said to a line. Lines that aren't calls aren't counted.
    pub fn add(&mut self, line: &Line, said: &Said) {
        if let (Some(call), Some(answer)) = (place_of_call(line), place_of_answer(said)) {
            self.0[call][answer] += 1;
        }
    }

    /// How many calls there were.
    pub fn calls(&self) -> usize {
        self.0.iter().flatten().sum()
    }

    /// Whether every call met every answer it can meet, and no other.
    pub fn is_complete(&self) -> bool {
        let due = CALLS.iter().map(|(_, refusals)| {
            std::array::from_fn(|answer| answer == 0 || refusals.contains(&refusal_at(answer)))
        });
        self.0.iter().map(|answers| answers.map(|count| count > 0)).eq(due)
    }
}

/// A row for each call, a column for each answer.
impl fmt::Display for Met {
    fn fmt(&self, formatter: &mut fmt::Formatter) -> fmt::Result {
        write!(formatter, "{:9}{:>9}", "", "done")?;
        for answer in 1..ANSWERS {
            write!(formatter, "{:>9}", refusal_at(answer))?;
        }
        for ((call, _), answers) in CALLS.iter().zip(self.0) {
            write!(formatter, "\n{call:9}")?;
            for count in answers {
                write!(formatter, "{count:9}")?;
            }
        }
        Ok(())
    }
}

/// The refusal at a place of a row, from 1 on.
fn refusal_at(answer: usize) -> u8 {
    24 + answer as u8
}

fn place_of_call(line: &Line) -> Option<usize> {
    match line {
        Line::Open => Some(0),
        Line::Call(Call::ChooseProgramme(_)) => Some(1),
        Line::Call(Call::ChooseObject(_)) => Some(2),
        Line::Call(Call::SetGain(..)) => Some(3),
        Line::Call(Call::SetOffset(..)) => Some(4),
        Line::List | Line::ListInto(_) => Some(5),
        Line::Lend(_) | Line::State | Line::PutProgramme(_) | Line::PutObject(..) => None,
    }
}

fn place_of_answer(said: &Said) -> Option<usize> {
    match said {
        Said::Done | Said::Tracks(_) => Some(0),
        Said::Refused(number) => Some(usize::from(*number) - 24),
        Said::Lent(_) | Said::State(_) | Said::Put | Said::NotUnderstood => None,
    }
}
