//! Rule 20: "the leader's, then the member's unequal word or kind".

use super::Figure;
use crate::second::terms::kind;
use crate::second::view::{object, Record, OBJECT};

/// What rule 20 compares: "interact, gain, offset, the four range words or kind" (document 01),
/// of the range words "gain before offset, minimum before maximum".
#[allow(missing_docs)]
#[derive(Clone, Copy, Debug, PartialEq, Eq, PartialOrd, Ord)]
pub enum Compared {
    Interact,
    Gain,
    Offset,
    GainMinimum,
    GainMaximum,
    OffsetMinimum,
    OffsetMaximum,
    Kind,
}

/// All of them in order.
pub const IN_ORDER: [Compared; 8] = [
    Compared::Interact,
    Compared::Gain,
    Compared::Offset,
    Compared::GainMinimum,
    Compared::GainMaximum,
    Compared::OffsetMinimum,
    Compared::OffsetMaximum,
    Compared::Kind,
];

/// What a leader and a member have unequal.
#[derive(Clone, Copy, Debug, PartialEq, Eq)]
pub struct Difference {
    /// What is unequal.
    pub compared: Compared,
    /// The leader's word or kind.
    pub leader: Figure,
    /// The member's.
    pub member: Figure,
}

impl Difference {
    /// "The leader's, then the member's."
    pub fn figures(&self) -> [Figure; 2] {
        [self.leader, self.member]
    }
}

/// What a leader has unlike its members, "by member in list order".
pub fn differences(leader: &Record) -> Vec<Difference> {
    let members = leader.named(object::COMPLEMENTS, OBJECT);
    members.flat_map(|member| between(leader, &member)).collect()
}

fn between(leader: &Record, member: &Record) -> Vec<Difference> {
    IN_ORDER
        .into_iter()
        .map(|compared| Difference {
            compared,
            leader: figure(compared, leader),
            member: figure(compared, member),
        })
        .filter(|difference| difference.leader.value != difference.member.value)
        .collect()
}

/// A word of the object, or its kind, which by rule 13 every object has.
fn figure(compared: Compared, object: &Record) -> Figure {
    let field = match compared {
        Compared::Interact => object::INTERACT,
        Compared::Gain => object::GAIN,
        Compared::Offset => object::OFFSET,
        Compared::GainMinimum => object::GAIN_MINIMUM,
        Compared::GainMaximum => object::GAIN_MAXIMUM,
        Compared::OffsetMinimum => object::OFFSET_MINIMUM,
        Compared::OffsetMaximum => object::OFFSET_MAXIMUM,
        Compared::Kind => return Figure::of_number(object, kind(object).unwrap_or(0).into()),
    };
    Figure::of_word(object, object.word(field))
}
