//! Random damage to a plan: lists, values and records that stay inside their sections, so
//! that the later rules are met too.

use crate::build::{word, Plan, Values, ABSENT, NO_PACK, NO_RANGE, SILENCE};
use crate::generate::random::Random;

/// Changes a plan in one or two points.
pub fn damage_plan(random: &mut Random, mut plan: Plan) -> Plan {
    for _ in 0..random.between(1, 2) {
        match random.below(9) {
            0..=3 => damage_list(random, &mut plan),
            4 => damage_object_values(random, &mut plan),
            5 => damage_set(random, &mut plan),
            6 => damage_span(random, &mut plan),
            7 => damage_object(random, &mut plan),
            _ => damage_other(random, &mut plan),
        }
    }
    plan
}

/// A list of a plan, and the number of records that its entries name.
type Named<'a> = (&'a mut Vec<u16>, usize);

fn lists(plan: &mut Plan) -> Vec<Named<'_>> {
    let contents = plan.contents.len();
    let objects = plan.objects.len();
    let tracks = plan.tracks.len();
    let sets = plan.value_sets.len();
    let languages = 65_536;
    let of_programmes = plan.programmes.iter_mut().flat_map(|p| {
        [(&mut p.contents, contents), (&mut p.sets, sets), (&mut p.labels, languages)]
    });
    let of_contents = plan.contents.iter_mut().map(|c| (&mut c.labels, languages));
    let of_objects = plan.objects.iter_mut().flat_map(|o| {
        [(&mut o.tracks, tracks), (&mut o.children, objects), (&mut o.complements, objects)]
    });
    of_programmes.chain(of_contents).chain(of_objects).collect()
}

/// Removes, doubles, replaces or adds an entry of a list, or exchanges two.
fn damage_list(random: &mut Random, plan: &mut Plan) {
    let mut lists = lists(plan);
    let mut chosen = random.below(lists.len());
    if lists[chosen].0.is_empty() && random.chance(80) {
        let filled: Vec<usize> = (0..lists.len()).filter(|&l| !lists[l].0.is_empty()).collect();
        chosen = random.pick(&filled);
    }
    let (list, length) = &mut lists[chosen];
    let new = word(random.below(*length));
    let place = random.below(list.len());
    match random.below(5) {
        _ if list.is_empty() => list.push(new),
        0 => drop(list.remove(place)),
        1 => list.push(list[place]),
        2 => list[place] = new,
        3 => list.push(new),
        _ => list.swap(0, place),
    }
}

/// Changes one of the six values.
fn damage_values(random: &mut Random, values: &mut Values) {
    let near = random.value(-4, 4);
    let gain = random.pick(&[ABSENT, SILENCE, -600, -601, 0, 210, 211, near]);
    let offset = random.pick(&[ABSENT, -300, -301, 0, 300, 301, near]);
    match random.below(6) {
        0 => values.gain = gain,
        1 => values.gain_range = random.pick(&[NO_RANGE, (SILENCE, 210), (0, 0), (-600, gain)]),
        2 => values.offset = offset,
        3 => values.offset_range = random.pick(&[NO_RANGE, (-300, 300), (0, 0), (offset, 300)]),
        4 => values.gain = values.gain.saturating_add(near),
        _ => values.offset = values.offset.saturating_add(near),
    }
}

fn damage_object_values(random: &mut Random, plan: &mut Plan) {
    let object = random.below(plan.objects.len());
    let other = random.below(plan.objects.len());
    match random.chance(25) {
        true => plan.objects[object].values = plan.objects[other].values,
        false => damage_values(random, &mut plan.objects[object].values),
    }
}

fn damage_set(random: &mut Random, plan: &mut Plan) {
    if plan.value_sets.is_empty() {
        return;
    }
    let set = random.below(plan.value_sets.len());
    let other = random.below(plan.value_sets.len());
    match random.below(4) {
        0 => plan.value_sets.swap(set, other),
        1 => plan.value_sets[set].own ^= 1,
        _ => damage_values(random, &mut plan.value_sets[set].values),
    }
}

/// Moves a span, or the border between two.
fn damage_span(random: &mut Random, plan: &mut Plan) {
    let object = random.below(plan.objects.len());
    let other = random.below(plan.objects.len());
    let (first, count) = plan.objects[object].set_span;
    match random.below(4) {
        0 => plan.objects[object].set_span = plan.objects[other].set_span,
        1 => plan.objects[object].set_span = (first, count.saturating_sub(1)),
        2 => plan.objects[object].set_span = (first.saturating_sub(1), count + 1),
        _ => {
            plan.objects[object].set_span = plan.objects[other].set_span;
            plan.objects[other].set_span = (first, count);
        }
    }
}

/// Changes an object's interact or pack, or exchanges lists with another object.
fn damage_object(random: &mut Random, plan: &mut Plan) {
    let object = random.below(plan.objects.len());
    let other = random.below(plan.objects.len());
    let pack = word(random.below(plan.packs.len()));
    match random.below(5) {
        0 => plan.objects[object].interact ^= 1,
        1 => plan.objects[object].pack = random.pick(&[pack, NO_PACK]),
        2 => plan.objects.swap(object, other),
        3 => {
            plan.objects[object].pack = plan.objects[other].pack;
            plan.objects[object].tracks = plan.objects[other].tracks.clone();
        }
        _ => plan.objects[object].complements = plan.objects[other].complements.clone(),
    }
}

/// Changes the level, a pack, a track or a content.
fn damage_other(random: &mut Random, plan: &mut Plan) {
    let pack = random.below(plan.packs.len());
    let track = random.below(plan.tracks.len());
    let content = random.below(plan.contents.len());
    match random.below(7) {
        0 => plan.level = word(random.below(3)),
        1 => plan.packs[pack].front ^= 1,
        2 => plan.packs[pack].kind ^= 2,
        3 => plan.packs[pack].channels = word(random.below(4)),
        4 => plan.tracks[track].ordinal = word(random.below(3)),
        5 => plan.tracks[track].pack = word(pack),
        _ => plan.contents[content].object = word(random.below(plan.objects.len())),
    }
}
