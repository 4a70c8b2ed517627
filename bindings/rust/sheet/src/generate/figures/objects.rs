//! Objects of a plan that figures are told of.

use crate::build::Plan;

/// Whether the object is on a pack of kind 3 with front 1, so that it may have offsets.
pub fn is_on_front(plan: &Plan, object: usize) -> bool {
    let pack = plan.packs.get(usize::from(plan.objects[object].pack));
    pack.is_some_and(|pack| pack.kind == 3 && pack.front == 1)
}

/// The value sets of an object.
pub fn sets_of(plan: &Plan, object: usize) -> std::ops::Range<usize> {
    let (first, count) = plan.objects[object].set_span;
    usize::from(first)..usize::from(first) + usize::from(count)
}

/// The top objects: those that a content names.
pub fn top_objects(plan: &Plan) -> Vec<usize> {
    plan.contents.iter().map(|content| usize::from(content.object)).collect()
}

/// Each group: its leader, then those it lists.
pub fn groups(plan: &Plan) -> Vec<Vec<usize>> {
    let leaders = plan.objects.iter().enumerate().filter(|(_, o)| !o.complements.is_empty());
    leaders
        .map(|(leader, object)| {
            let members = object.complements.iter().map(|&member| usize::from(member));
            std::iter::once(leader).chain(members).collect()
        })
        .collect()
}
