//! Which classes of clashes sheets met, and how often.

use std::collections::BTreeMap;
use std::fmt;

use super::TOLD_RULES;
use crate::second::figures::bounds::{Bound, Clash, Sort, Test};
use crate::second::figures::members::{Compared, Difference, IN_ORDER};
use crate::second::figures::Clashes;
use crate::second::terms::{groups, has_children, single_objects, size};
use crate::second::values::SILENCE;
use crate::second::view::{Sheet, OBJECT, VALUE_SET};
use crate::second::{check, Verdict};

/// How many sheets met each class; those that have to be met stand at 0 from the start.
pub struct Met(BTreeMap<String, usize>);

impl Default for Met {
    fn default() -> Met {
        let groups = [of_rules(), of_bounds(), of_members(), of_shares()];
        Met(groups.into_iter().flatten().map(|class| (class, 0)).collect())
    }
}

impl Met {
    /// Adds a sheet.
    pub fn add(&mut self, sheet: &[u8], langs: &[u8]) {
        for class in classes(sheet, langs) {
            *self.0.entry(class).or_default() += 1;
        }
    }

    /// Adds all that others met.
    pub fn add_all(&mut self, others: Met) {
        for (class, number) in others.0 {
            *self.0.entry(class).or_default() += number;
        }
    }

    /// The classes that no sheet met.
    pub fn never_met(&self) -> Vec<&str> {
        let never = self.0.iter().filter(|(_, &number)| number == 0);
        never.map(|(class, _)| class.as_str()).collect()
    }
}

/// A row for each class.
impl fmt::Display for Met {
    fn fmt(&self, formatter: &mut fmt::Formatter) -> fmt::Result {
        self.0.iter().try_for_each(|(class, number)| writeln!(formatter, "{number:7}  {class}"))
    }
}

/// All classes of a sheet.
fn classes(sheet: &[u8], langs: &[u8]) -> Vec<String> {
    let verdict = check(sheet, langs);
    let sheet = Sheet::new(sheet, langs);
    let mut classes = match Clashes::at(sheet, verdict) {
        Clashes::OutOfBounds(clashes) => classes_of_bounds(&clashes),
        Clashes::Unequal(differences) => classes_of_members(&differences),
        Clashes::TooManyTracks(_) => classes_of_shares(sheet),
        Clashes::NotTold => Vec::new(),
    };
    classes.push(rule_class(match verdict {
        Verdict::Accepted => 0,
        Verdict::Broken { rule, .. } => rule,
    }));
    classes
}

fn rule_class(rule: u8) -> String {
    match rule {
        0 => String::from("accepted"),
        _ if TOLD_RULES.contains(&rule) => format!("rule {rule}"),
        _ => String::from("another rule"),
    }
}

fn of_rules() -> Vec<String> {
    [0, 1, 18, 20, 24].into_iter().map(rule_class).collect()
}

fn test_name(test: Test) -> &'static str {
    match test {
        Test::Object => "an object's",
        Test::Effective => "a set's effective",
        Test::Own => "a set's own, in its object's range,",
    }
}

fn sort_name(sort: Sort) -> &'static str {
    match sort {
        Sort::Gain => "gain",
        Sort::Offset => "offset",
    }
}

/// The class of what is told for rule 18.
fn bound_class(test: Test, sort: Sort, bound: Bound, silent: bool) -> String {
    let value = if silent { "silence" } else { sort_name(sort) };
    let bound = match bound {
        Bound::Minimum => "below minimum",
        Bound::Maximum => "above maximum",
    };
    format!("rule 18: {} {value} {bound}", test_name(test))
}

/// The class of the records that the lines of a set's clash name.
fn record_class(value: u8, bound: u8) -> String {
    let owner = |section| if section == OBJECT { "object" } else { "set" };
    format!("rule 18: at a set, value of the {}, bound of the {}", owner(value), owner(bound))
}

/// The class of what is told and of what else clashes there.
fn order_class(first: (Test, Sort), other: (Test, Sort)) -> String {
    let name = |(test, sort)| format!("{} {}", test_name(test), sort_name(sort));
    format!("rule 18: {} told before {}", name(first), name(other))
}

fn of_bounds() -> Vec<String> {
    let values = [
        (Sort::Gain, Bound::Minimum, true),
        (Sort::Gain, Bound::Minimum, false),
        (Sort::Gain, Bound::Maximum, false),
        (Sort::Offset, Bound::Minimum, false),
        (Sort::Offset, Bound::Maximum, false),
    ];
    let tests = [Test::Object, Test::Effective, Test::Own];
    let told = tests.into_iter().flat_map(|test| {
        values.map(|(sort, bound, silent)| bound_class(test, sort, bound, silent))
    });
    let records = [(VALUE_SET, VALUE_SET), (OBJECT, VALUE_SET), (VALUE_SET, OBJECT)];
    let records = records.into_iter().map(|(value, bound)| record_class(value, bound));
    let [gain, offset] = [Sort::Gain, Sort::Offset];
    let orders = [
        order_class((Test::Object, gain), (Test::Object, offset)),
        order_class((Test::Effective, gain), (Test::Effective, offset)),
        order_class((Test::Effective, gain), (Test::Own, gain)),
        order_class((Test::Effective, gain), (Test::Own, offset)),
        order_class((Test::Effective, offset), (Test::Own, gain)),
        order_class((Test::Effective, offset), (Test::Own, offset)),
        order_class((Test::Own, gain), (Test::Own, offset)),
    ];
    told.chain(records).chain(orders).collect()
}

fn classes_of_bounds(clashes: &[Clash]) -> Vec<String> {
    let first = clashes[0];
    let silent = first.sort == Sort::Gain && first.value.value == i32::from(SILENCE as i16);
    let mut classes = vec![bound_class(first.test, first.sort, first.bound, silent)];
    if first.test != Test::Object {
        classes.push(record_class(first.value.section, first.limit.section));
    }
    // with own 0 both tests of a set can find one clash
    let others = clashes[1..].iter().filter(|other| other.figures() != first.figures());
    classes.extend(
        others.map(|other| order_class((first.test, first.sort), (other.test, other.sort))),
    );
    classes
}

fn compared_name(compared: Compared) -> &'static str {
    match compared {
        Compared::Interact => "interact",
        Compared::Gain => "gain",
        Compared::Offset => "offset",
        Compared::GainMinimum => "gain minimum",
        Compared::GainMaximum => "gain maximum",
        Compared::OffsetMinimum => "offset minimum",
        Compared::OffsetMaximum => "offset maximum",
        Compared::Kind => "kind",
    }
}

/// The class of what is told for rule 20.
fn compared_class(compared: Compared) -> String {
    format!("rule 20: {}", compared_name(compared))
}

/// The class of what is told and of what else that member has unequal.
fn words_class(first: Compared, other: Compared) -> String {
    format!("rule 20: {} told before {}", compared_name(first), compared_name(other))
}

const SEVERAL_MEMBERS: &str = "rule 20: another member after it";
const EARLIER_WORD: &str = "rule 20: an earlier word of another member after it";
const LOWER_MEMBER: &str = "rule 20: another member after it with a lower record";

fn of_members() -> Vec<String> {
    let named = [SEVERAL_MEMBERS, EARLIER_WORD, LOWER_MEMBER].map(String::from);
    let pairs = IN_ORDER
        .into_iter()
        .flat_map(|first| IN_ORDER.map(|other| (first, other)))
        .filter(|&(first, other)| first < other)
        // with unequal kinds one of the two has no offsets at all
        .filter(|&pair| pair != (Compared::OffsetMaximum, Compared::Kind))
        .map(|(first, other)| words_class(first, other));
    IN_ORDER.into_iter().map(compared_class).chain(named).chain(pairs).collect()
}

fn classes_of_members(differences: &[Difference]) -> Vec<String> {
    let first = differences[0];
    let any = |holds: &dyn Fn(&Difference) -> bool| differences[1..].iter().any(holds);
    let of_another = |other: &Difference| other.member.record != first.member.record;
    let mut classes = vec![compared_class(first.compared)];
    let named = [
        (SEVERAL_MEMBERS, any(&of_another)),
        (EARLIER_WORD, any(&|other| of_another(other) && other.compared < first.compared)),
        (LOWER_MEMBER, any(&|other| other.member.record < first.member.record)),
    ];
    classes.extend(named.into_iter().filter(|(_, met)| *met).map(|(class, _)| String::from(class)));
    let same_member = differences[1..].iter().filter(|other| !of_another(other));
    classes.extend(same_member.map(|other| words_class(first.compared, other.compared)));
    classes
}

/// What a sheet that rule 24 refuses may have.
const SHARES: [&str; 8] = [
    "a group",
    "several groups",
    "a lone object",
    "a lone object with children",
    "a member with children",
    "a leader smaller than a member",
    "a leader larger than all members",
    "a leader after a member",
];

fn share_class(level: u16, what: &str) -> String {
    format!("rule 24: at level {level}, {what}")
}

fn of_shares() -> Vec<String> {
    [1, 2].into_iter().flat_map(|level| SHARES.map(|what| share_class(level, what))).collect()
}

fn classes_of_shares(sheet: Sheet) -> Vec<String> {
    let groups = groups(sheet);
    let lone = single_objects(sheet);
    let parent = |&object: &usize| has_children(&sheet.record(OBJECT, object));
    let size = |&object: &usize| size(&sheet.record(OBJECT, object));
    let any_group = |holds: &dyn Fn(&usize, &[usize]) -> bool| {
        groups.iter().any(|group| holds(&group[0], &group[1..]))
    };
    let met = [
        !groups.is_empty(),
        groups.len() > 1,
        !lone.is_empty(),
        lone.iter().any(parent),
        groups.iter().flatten().any(parent),
        any_group(&|leader, members| members.iter().any(|member| size(member) > size(leader))),
        any_group(&|leader, members| members.iter().all(|member| size(member) < size(leader))),
        any_group(&|leader, members| members.iter().any(|member| member < leader)),
    ];
    let met = SHARES.into_iter().zip(met).filter(|(_, met)| *met);
    met.map(|(what, _)| share_class(sheet.level(), what)).collect()
}
