//! Honest sheets as large as they get: a full sheet of level 2, and a largest one of level 0;
//! and sheets of level 0 of any size, of short episodes or mostly of labels.

use super::clauses::bases::set_with_gain;
use super::languages::lists;
use super::Generated;
use crate::build::{word, Plan, ValueSet, LARGEST};
use crate::second::Verdict;

/// How many of each an episode has: pairs of objects, children of an object, sets of an
/// object, labels of a programme or content, and programmes.
struct Episode {
    pairs: usize,
    children: usize,
    sets: usize,
    labels: usize,
    programmes: usize,
}

const FULL: Episode = Episode { pairs: 14, children: 2, sets: 16, labels: 8, programmes: 16 };
const SHORT: Episode = Episode { pairs: 1, children: 1, sets: 2, labels: 2, programmes: 2 };

/// The labels of a programme where most words are labels and languages.
const LABELS: usize = 16;

/// Both sheets.
pub fn sheets() -> Vec<Generated> {
    let accepted = |name: &str, plan: Plan| Generated {
        name: format!("honest {name}"),
        sheet: plan.bytes(),
        langs: lists::REAL.to_vec(),
        expected: Some(Verdict::Accepted),
    };
    vec![accepted("full sheet of level 2", full()), accepted("largest sheet of level 0", largest())]
}

/// A sheet that meets most limits of level 2: programmes, contents, objects, packs, tracks, the
/// lists of a programme, labels, spans, groups and counted tracks.
pub fn full() -> Plan {
    let mut plan = Plan::new(2);
    add_episode(&mut plan, &FULL);
    plan
}

/// As many full sheets as fit into one, and unused entries.
pub fn largest() -> Plan {
    episodes(&FULL, LARGEST)
}

/// The plan with languages from qaa to qtz in the place of its own, which need no list.
pub fn in_local_languages(mut plan: Plan) -> Plan {
    let languages = lists::words(lists::REAL);
    let local = |word: &mut u16| {
        let number = languages.binary_search(word).expect("a language of the list");
        *word = lists::QAA + 32 * (number as u16 / 26) + number as u16 % 26;
    };
    for programme in &mut plan.programmes {
        local(&mut programme.language);
        programme.labels.iter_mut().for_each(local);
    }
    for content in &mut plan.contents {
        local(&mut content.language);
        content.labels.iter_mut().for_each(local);
    }
    plan
}

/// A sheet of so many words: as many short episodes as fit, and unused entries.
pub fn of_words(words: usize) -> Plan {
    episodes(&SHORT, words)
}

/// A sheet of so many words, of which most are labels and languages: programmes of one content, as
/// many as fit, each with languages of the list in their order.
pub fn of_labels(words: usize) -> Plan {
    let languages = lists::words(lists::REAL);
    let mut plan = Plan::new(0);
    let pack = plan.add_pack(1, 1, 0);
    let object = plan.add_object(pack);
    let content = plan.add_content(object);
    let without = plan.words().len();
    add_labelled(&mut plan, content, &languages);
    let programme = plan.words().len() - without;
    for _ in 1..(words - without) / programme {
        add_labelled(&mut plan, content, &languages);
    }
    plan.filled_to(words)
}

/// Adds a programme whose labels come in the list after those of the one before it, counted modulo
/// the places from which so many labels and a language can be taken.
fn add_labelled(plan: &mut Plan, content: u16, languages: &[u16]) {
    let programme = usize::from(plan.add_programme(vec![content]));
    let first = programme * LABELS % (languages.len() - LABELS);
    let record = &mut plan.programmes[programme];
    record.language = languages[first + LABELS];
    record.labels = languages[first..first + LABELS].to_vec();
}

fn episodes(episode: &Episode, words: usize) -> Plan {
    let mut one = Plan::new(0);
    add_episode(&mut one, episode);
    let mut plan = Plan::new(0);
    for _ in 0..words / one.words().len() {
        add_episode(&mut plan, episode);
    }
    plan.filled_to(words)
}

/// Adds pairs of objects, and programmes that include them all; programme n names for each
/// object its set n.
fn add_episode(plan: &mut Plan, episode: &Episode) {
    let objects: Vec<u16> = (0..episode.pairs).flat_map(|_| add_pair(plan, episode)).collect();
    let labels = lists::words(lists::REAL)[..episode.labels].to_vec();
    let contents: Vec<u16> =
        objects.iter().map(|&object| add_content(plan, object, labels.clone())).collect();
    let spans = objects.iter().map(|&object| plan.objects[usize::from(object)].set_span.0);
    let spans: Vec<u16> = spans.collect();
    for number in 0..word(episode.programmes) {
        let programme = plan.add_programme(contents.clone());
        let programme = &mut plan.programmes[usize::from(programme)];
        programme.sets = spans.iter().map(|first| first + number).collect();
        programme.labels = labels.clone();
    }
}

fn add_content(plan: &mut Plan, object: u16, labels: Vec<u16>) -> u16 {
    let content = plan.add_content(object);
    plan.contents[usize::from(content)].labels = labels;
    content
}

fn add_pair(plan: &mut Plan, episode: &Episode) -> [u16; 2] {
    let [leader, other] = [0, 0].map(|_| add_parent(plan, episode));
    plan.objects[usize::from(leader)].complements = vec![other];
    [leader, other]
}

/// Adds an object with children, a gain range and value sets.
fn add_parent(plan: &mut Plan, episode: &Episode) -> u16 {
    let children = (0..episode.children).map(|_| add_child(plan)).collect();
    let parent = plan.add_parent(children);
    let sets: Vec<ValueSet> =
        (0..episode.sets).map(|number| set_with_gain(-(number as i16))).collect();
    plan.add_sets(parent, &sets);
    let record = &mut plan.objects[usize::from(parent)];
    record.interact = 1;
    record.values.gain_range = (-60, 60);
    parent
}

fn add_child(plan: &mut Plan) -> u16 {
    let pack = plan.add_pack(3, 1, 0);
    plan.add_object(pack)
}
