//! The broken rules, in checking order. Each function gives the least place that breaks
//! its rule, over all clauses of the rule together.
//!
//! A rule is asked only when no earlier one is broken; from rule 6 on every list and
//! every index therefore lies inside its section.

mod groups;
mod header;
mod limits;
mod lists;
mod names;
mod objects;
mod sets;
mod values;
pub(crate) mod words;

use super::view::{Place, Record, Sheet};

/// The least place that breaks a rule.
pub type Rule = fn(Sheet) -> Option<Place>;

/// The rules with their numbers: 33, "tested before rule 1" (document 02, L2), then 1 to 24.
pub const IN_ORDER: [(u8, Rule); 25] = [
    (33, header::rule_33),
    (1, header::rule_1),
    (2, header::rule_2),
    (3, header::rule_3),
    (4, lists::rule_4),
    (5, lists::rule_5),
    (6, words::rule_6),
    (7, limits::rule_7),
    (8, limits::rule_8),
    (9, names::rule_9),
    (10, limits::rule_10),
    (11, names::rule_11),
    (12, names::rule_12),
    (13, objects::rule_13),
    (14, objects::rule_14),
    (15, objects::rule_15),
    (16, values::rule_16),
    (17, values::rule_17),
    (18, values::rule_18),
    (19, groups::rule_19),
    (20, groups::rule_20),
    (21, groups::rule_21),
    (22, sets::rule_22),
    (23, limits::rule_23),
    (24, limits::rule_24),
];

/// "Within one rule the lowest section, then the lowest record."
fn least<'a>(records: impl Iterator<Item = Record<'a>>) -> Option<Place> {
    records.map(|record| record.place()).min()
}

/// The header as place, where the rule is broken.
fn header_if(broken: bool) -> Option<Place> {
    broken.then(|| Place::section(super::view::HEADER))
}
