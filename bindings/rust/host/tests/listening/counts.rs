//! What the scripts met.

use std::{fmt, iter};

use sheet::generate::scripts::Script;
use sheet::script::{Lends, Line, Met, Said};

/// How many lists there were, and what their calls met.
#[derive(Default)]
pub struct Counts {
    lists: usize,
    met: Met,
    /// Calls that were lent another list than before.
    lends: Lends,
    /// Lists under demand 3, of level 1 and of level 2.
    due: [usize; 2],
    /// Listings under demand 3, each after a call or an opening.
    due_listings: usize,
    /// Listings right after a state was put, of sound states and of others.
    put: [usize; 2],
}

impl Counts {
    /// Adds what was said to a script: to its opening, then to its lines.
    pub fn add(&mut self, script: &Script, said: &[Said]) {
        self.lists += 1;
        if let Some(plan) = &script.due {
            self.due[usize::from(plan.level == 2)] += 1;
            self.due_listings += script.lines.iter().filter(|line| **line == Line::List).count();
        }
        let mut before = &Line::Open;
        let lines = || iter::once(&Line::Open).chain(&script.lines).zip(said);
        for (line, said) in lines() {
            self.met.add(line, said);
            if is_put(before) && *line == Line::List && *said != Said::Refused(25) {
                self.put[usize::from(*said == Said::Refused(26))] += 1;
            }
            before = line;
        }
        self.lends.add(lines());
    }

    /// Whether the calls met all they can meet, demand 3 was due at both levels, states that were
    /// put were both sound and not, and calls were refused under another list and done again.
    pub fn all_met(&self) -> bool {
        let Lends { refused, done_again } = self.lends;
        self.met.is_complete()
            && !self.due.contains(&0)
            && !self.put.contains(&0)
            && refused > 0
            && done_again > 0
    }
}

fn is_put(line: &Line) -> bool {
    matches!(line, Line::PutProgramme(_) | Line::PutObject(..))
}

impl fmt::Display for Counts {
    fn fmt(&self, formatter: &mut fmt::Formatter) -> fmt::Result {
        let Counts { lists, met, lends, due_listings, .. } = self;
        let ([level_1, level_2], [sound, others]) = (self.due, self.put);
        writeln!(formatter, "{met}")?;
        writeln!(formatter, "states put: {sound} sound, {others} not")?;
        let Lends { refused, done_again } = lends;
        writeln!(
            formatter,
            "lent another list: {refused} times refused by 25, {done_again} times done again later"
        )?;
        writeln!(
            formatter,
            "demand 3: {level_1} lists of level 1 and {level_2} of level 2, kept at {due_listings} points"
        )?;
        let calls = met.calls();
        let all = if self.all_met() { "all answers met" } else { "some answers never met" };
        write!(formatter, "listening test: {lists} lists, {calls} calls, no difference, {all}")
    }
}
