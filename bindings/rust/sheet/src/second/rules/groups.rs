//! Rules 19 to 21: complementary groups.

use super::least;
use crate::second::terms::{
    groups, included_members, included_objects, is_leader, kind, namings, top_objects,
};
use crate::second::view::{object, Place, Record, Sheet, OBJECT, PROGRAMME};

/// "An object lists a complement that isn't top, that itself lists some, or that
/// complement lists name more than once."
pub fn rule_19(sheet: Sheet) -> Option<Place> {
    let top = top_objects(sheet);
    let in_complement_lists =
        sheet.records(OBJECT).flat_map(|object| object.entries(object::COMPLEMENTS));
    let times = namings(sheet.count(OBJECT), in_complement_lists);
    let bad = |object: &Record| {
        object.named(object::COMPLEMENTS, OBJECT).any(|complement| {
            !top[complement.index] || is_leader(&complement) || times[complement.index] > 1
        })
    };
    least(sheet.records(OBJECT).filter(bad))
}

/// "A leader differs from a member in interact, gain, offset, the four range words or
/// kind."
pub fn rule_20(sheet: Sheet) -> Option<Place> {
    let bad = |leader: &Record| {
        leader.named(object::COMPLEMENTS, OBJECT).any(|member| differ(leader, &member))
    };
    least(sheet.records(OBJECT).filter(bad))
}

fn differ(leader: &Record, member: &Record) -> bool {
    leader.word(object::INTERACT) != member.word(object::INTERACT)
        || leader.values() != member.values()
        || kind(leader) != kind(member)
}

/// "A programme includes some of a group, but neither one nor all."
pub fn rule_21(sheet: Sheet) -> Option<Place> {
    let groups = groups(sheet);
    let bad = |programme: &Record| {
        let included = included_objects(programme);
        groups.iter().any(|group| {
            let members = included_members(group, &included);
            members > 1 && members < group.len()
        })
    };
    least(sheet.records(PROGRAMME).filter(bad))
}
