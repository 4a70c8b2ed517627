//! Plans of which an object or a set may leave a range: rule 18.

use super::objects::{is_on_front, sets_of, top_objects};
use super::values::{any_values, Allowed};
use crate::build::{word, Plan, ValueSet};
use crate::generate::accepted::{self, object_values};
use crate::generate::random::Random;

/// A few objects with sets, or an accepted plan of which some values are changed.
pub fn plan(random: &mut Random) -> Plan {
    match random.below(4) {
        0 => changed(random, accepted::plan),
        1 => changed(random, accepted::small_plan),
        _ => few_objects(random),
    }
}

/// Up to four objects, most of them on a front pack, and up to three sets of each.
fn few_objects(random: &mut Random) -> Plan {
    let mut plan = Plan::new(word(random.below(3)));
    let [front, other] = [plan.add_pack(3, 1, 1), plan.add_pack(1, 1, 0)];
    let number = random.between(1, 4);
    for _ in 0..number {
        let object = plan.add_object(random.pick(&[front, front, front, other]));
        plan.add_content(object);
    }
    let mut order: Vec<usize> = (0..number).collect();
    random.shuffle(&mut order);
    for &object in &order {
        let sets = [ValueSet::NONE; 3];
        plan.add_sets(word(object), &sets[..random.below(4)]);
        change_object(random, &mut plan, object);
        change_sets(random, &mut plan, object);
    }
    plan.add_programme((0..word(number)).collect());
    plan
}

/// An accepted plan with other values in one to three objects or their sets.
fn changed(random: &mut Random, accepted: fn(&mut Random, u16) -> Plan) -> Plan {
    let level = word(random.below(3));
    let mut plan = accepted(random, level);
    let objects = top_objects(&plan);
    for _ in 0..random.between(1, 3) {
        let object = random.pick(&objects);
        match sets_of(&plan, object).is_empty() || random.chance(30) {
            true => change_object(random, &mut plan, object),
            false => change_sets(random, &mut plan, object),
        }
    }
    plan
}

/// Gives the object interact 1 and other values, in most cases inside their ranges.
fn change_object(random: &mut Random, plan: &mut Plan, object: usize) {
    let offsets = is_on_front(plan, object);
    let values = match random.chance(70) {
        true => object_values(random, true, offsets),
        false => any_values(random, Allowed { ranges: true, offsets }),
    };
    plan.objects[object].interact = 1;
    plan.objects[object].values = values;
}

/// Gives the sets of the object other values.
fn change_sets(random: &mut Random, plan: &mut Plan, object: usize) {
    let offsets = is_on_front(plan, object);
    let interact = plan.objects[object].interact == 1;
    for set in sets_of(plan, object) {
        let own = interact && random.chance(65);
        let values = any_values(random, Allowed { ranges: own, offsets });
        plan.value_sets[set] = ValueSet { own: own.into(), values };
    }
}
