//! What random accepted sheets hold: every feature in some sheets of every level, and
//! every limit met exactly.

use sheet::build::{Plan, LARGEST, SILENCE};
use sheet::generate::random::Random;
use sheet::generate::{accepted, honest};

type Feature = (&'static str, fn(&Plan) -> bool);

const FEATURES: [Feature; 12] = [
    ("content in two programmes", |plan| {
        let contents = plan.programmes.iter().flat_map(|programme| programme.contents.clone());
        has_twice(contents.collect())
    }),
    ("group in one programme, single member in another", |plan| {
        let whole = |included: usize, members| included == members && members > 1;
        let pairs = plan.programmes.len() * plan.programmes.len();
        (0..pairs).any(|pair| {
            let one = included_members(plan, pair / plan.programmes.len());
            let other = included_members(plan, pair % plan.programmes.len());
            let mut both = one.into_iter().zip(other);
            both.any(|((one, members), (other, _))| whole(one, members) && other == 1)
        })
    }),
    ("named set with own 0", |plan| named_sets_own(plan).contains(&0)),
    ("named set with own 1", |plan| named_sets_own(plan).contains(&1)),
    ("object with children", |plan| plan.objects.iter().any(|object| object.children.len() > 1)),
    ("object with several channels", |plan| {
        plan.objects.iter().any(|object| object.tracks.len() > 1)
    }),
    ("track of two objects", |plan| {
        has_twice(plan.objects.iter().flat_map(|object| object.tracks.clone()).collect())
    }),
    ("object's range down to silence", |plan| {
        plan.objects.iter().any(|object| object.values.gain_range.0 == SILENCE)
    }),
    ("object with an offset", |plan| {
        plan.objects.iter().any(|object| object.values.offset.abs() <= 300)
    }),
    ("set with an offset range", |plan| {
        plan.value_sets.iter().any(|set| set.values.offset_range.0 <= 0)
    }),
    ("several label languages", |plan| {
        plan.programmes.iter().any(|programme| programme.labels.len() > 1)
    }),
    ("leader after a member", |plan| {
        let mut objects = (0u16..).zip(&plan.objects);
        objects.any(|(leader, object)| object.complements.iter().any(|&member| member < leader))
    }),
];

fn has_twice(mut indices: Vec<u16>) -> bool {
    indices.sort();
    indices.windows(2).any(|pair| pair[0] == pair[1])
}

/// For each group how many members the programme includes, and how many there are.
fn included_members(plan: &Plan, programme: usize) -> Vec<(usize, usize)> {
    let contents = &plan.programmes[programme].contents;
    let included: Vec<u16> =
        contents.iter().map(|&content| plan.contents[usize::from(content)].object).collect();
    let leaders = (0u16..).zip(&plan.objects).filter(|(_, object)| !object.complements.is_empty());
    let groups =
        leaders.map(|(leader, object)| [vec![leader], object.complements.clone()].concat());
    groups
        .map(|group| (group.iter().filter(|m| included.contains(m)).count(), group.len()))
        .collect()
}

fn named_sets_own(plan: &Plan) -> Vec<u16> {
    let sets = plan.programmes.iter().flat_map(|programme| &programme.sets);
    sets.map(|&set| plan.value_sets[usize::from(set)].own).collect()
}

#[test]
fn every_feature_is_in_a_twentieth_of_the_sheets_of_each_level() {
    for level in 0..=2 {
        let mut random = Random::new(6);
        let plans: Vec<Plan> = (0..400).map(|_| accepted::plan(&mut random, level)).collect();
        for (name, holds) in FEATURES {
            let number = plans.iter().filter(|plan| holds(plan)).count();
            assert!(number >= 20, "{name} in {number} of 400 sheets of level {level}");
        }
    }
}

/// The largest numbers in some sheets of a level: programmes, contents, tracks, labels of
/// a content, sets of an object.
fn largest(level: u16) -> [usize; 5] {
    let mut random = Random::new(7);
    let mut largest = [0; 5];
    for _ in 0..1000 {
        let plan = accepted::plan(&mut random, level);
        let labels = plan.contents.iter().map(|content| content.labels.len());
        let sets = plan.objects.iter().map(|object| usize::from(object.set_span.1));
        let numbers = [
            plan.programmes.len(),
            plan.contents.len(),
            plan.tracks.len(),
            labels.max().unwrap_or(0),
            sets.max().unwrap_or(0),
        ];
        largest = std::array::from_fn(|index| largest[index].max(numbers[index]));
    }
    largest
}

#[test]
fn limits_are_met_exactly() {
    assert_eq!(largest(1), [8, 16, 32, 4, 8]);
    assert_eq!(largest(2), [16, 28, 56, 8, 16]);
}

#[test]
fn the_full_sheet_meets_limits_of_level_2() {
    let plan = honest::full();
    let counts = [
        plan.programmes.len(),
        plan.contents.len(),
        plan.objects.len(),
        plan.packs.len(),
        plan.tracks.len(),
    ];
    assert_eq!(counts, [16, 28, 84, 56, 56]);
    let programme = &plan.programmes[0];
    let lists = [&programme.contents, &programme.sets, &programme.labels].map(Vec::len);
    assert_eq!(lists, [28, 28, 8]);
    assert_eq!(plan.value_sets.len(), 28 * 16);
}

#[test]
fn the_largest_sheet_is_mostly_used() {
    let largest = honest::largest();
    assert_eq!(largest.words().len(), LARGEST);
    assert!(largest.stray_entries.len() < LARGEST / 20);
}

#[test]
fn the_sheets_of_labels_have_mostly_labels_and_languages() {
    for words in [512, LARGEST] {
        let plan = honest::of_labels(words);
        let labels: usize = plan.programmes.iter().map(|programme| programme.labels.len()).sum();
        assert_eq!(plan.words().len(), words);
        assert!(labels + plan.programmes.len() > words / 2);
    }
}
