//! Random sheets of which figures are told: rules 18, 20 and 24 refuse them.

mod groups;
/// Which classes of clashes were met.
pub mod met;
mod objects;
mod ranges;
mod tracks;
mod values;

use super::languages::lists;
use super::random::Random;
use super::Generated;
use crate::build::Plan;
use crate::second::{check, Verdict};

/// The rules of which figures are told.
pub const TOLD_RULES: [u8; 3] = [18, 20, 24];

/// Sheets without end, from a seed.
pub struct ClashingSheets {
    random: Random,
}

impl ClashingSheets {
    /// The sheets of a seed.
    pub fn new(seed: u64) -> ClashingSheets {
        ClashingSheets { random: Random::new(seed) }
    }

    /// A random sheet that one of `TOLD_RULES` refuses. Plans that break no rule, or an earlier
    /// one, are passed over.
    pub fn refused_by(&mut self, wanted: u8) -> Generated {
        loop {
            let sheet = plan(&mut self.random, wanted).bytes();
            let langs = lists::of(lists::held(&sheet));
            let verdict = check(&sheet, &langs);
            if matches!(verdict, Verdict::Broken { rule, .. } if rule == wanted) {
                let name = format!("random {verdict}");
                return Generated { name, sheet, langs, expected: None };
            }
        }
    }
}

/// A plan that may well break the rule.
fn plan(random: &mut Random, rule: u8) -> Plan {
    match rule {
        18 => ranges::plan(random),
        20 => groups::plan(random),
        24 => tracks::plan(random),
        _ => panic!("no figures are told of rule {rule}"),
    }
}
