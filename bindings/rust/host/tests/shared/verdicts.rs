//! Which verdicts the sheets met.

use std::fmt;

use sheet::second::Verdict;

/// Acceptance, at 0, and the rules.
const RULES: [u8; 26] =
    [0, 1, 2, 3, 4, 5, 6, 7, 8, 9, 10, 11, 12, 13, 14, 15, 16, 17, 18, 19, 20, 21, 22, 23, 24, 33];

/// How many sheets met acceptance and each rule, in the order of `RULES`.
#[derive(Default)]
pub struct Verdicts([usize; RULES.len()]);

impl Verdicts {
    /// Adds the verdict on a sheet.
    pub fn add(&mut self, verdict: Verdict) {
        let met = match verdict {
            Verdict::Accepted => 0,
            Verdict::Broken { rule, .. } => rule,
        };
        let place = RULES.iter().position(|&rule| rule == met);
        self.0[place.expect("a rule that there is")] += 1;
    }

    /// How many sheets there were.
    pub fn sheets(&self) -> usize {
        self.0.iter().sum()
    }

    /// How many of acceptance and the rules no sheet met.
    pub fn never_met(&self) -> usize {
        self.0.iter().filter(|&&count| count == 0).count()
    }
}

/// A row for acceptance and for each rule.
impl fmt::Display for Verdicts {
    fn fmt(&self, formatter: &mut fmt::Formatter) -> fmt::Result {
        let [accepted, rules @ ..] = self.0;
        write!(formatter, "accepted {accepted:7}")?;
        for (rule, count) in RULES[1..].iter().zip(rules) {
            write!(formatter, "\nrule {rule:2}  {count:7}")?;
        }
        Ok(())
    }
}
