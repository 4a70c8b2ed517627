//! Small random sheets of level 0 in which many lists overlap, so that the lists have more
//! entries together than section 6: what a checker with tables over section 6 is tried on.

use super::languages::lend::lend;
use super::random::Random;
use super::Generated;
use crate::build::{bytes, language, overwrite, position, word, Plan, ValueSet};
use crate::second::view::{content, object, programme, CONTENT, OBJECT, PROGRAMME};

/// The sheets of a seed, without end.
pub struct CrowdedSheets(Random);

impl CrowdedSheets {
    /// The sheets of a seed.
    pub fn new(seed: u64) -> CrowdedSheets {
        CrowdedSheets(Random::new(seed))
    }
}

impl Iterator for CrowdedSheets {
    type Item = Generated;

    fn next(&mut self) -> Option<Generated> {
        let mut crowd = Crowd::new(&mut self.0);
        crowd.set_lists();
        let sheet = bytes(&crowd.words);
        let (langs, expected) = lend(&mut self.0, &sheet, None);
        Some(Generated { name: "crowded".to_string(), sheet, langs, expected })
    }
}

/// A sheet whose section 6 is, after the lists of the plan, a run of indices twice, the
/// tracks of a large pack twice, and a run of languages.
struct Crowd<'a> {
    random: &'a mut Random,
    words: Vec<u16>,
    objects: usize,
    channels: usize,
    languages: usize,
}

impl Crowd<'_> {
    fn new(random: &mut Random) -> Crowd<'_> {
        let objects = random.between(2, 7);
        let channels = random.pick(&[1, 2, 64, 65, 70]);
        let languages = random.between(1, 12);
        let mut plan = plan(random, objects, channels);
        let mut indices: Vec<u16> = (0..word(objects)).collect();
        let mut tracks: Vec<u16> = (0..word(channels)).collect();
        random.shuffle(&mut indices);
        random.shuffle(&mut tracks);
        if random.chance(10) {
            // Ordinals that come twice, with the sum of all.
            let twice = |track: &mut u16| *track = if *track < 3 { 1 } else { *track };
            tracks.iter_mut().take_while(|_| channels > 2).for_each(twice);
        }
        plan.stray_entries = [&indices[..], &indices, &tracks, &tracks].concat();
        plan.stray_entries.extend((0..languages).map(|number| match random.chance(2) {
            true => language("aaa"),
            false => language("aaa") + word(number),
        }));
        if random.chance(15) {
            let track = 2 * objects + random.below(2 * channels);
            plan.stray_entries[track] += word(channels);
        }
        if random.chance(30) {
            let entry = random.below(plan.stray_entries.len());
            plan.stray_entries[entry] = random.pick(&[0, 1, word(objects), 64, 65_535]);
        }
        let words = plan.words();
        Crowd { random, words, objects, channels, languages }
    }

    /// Most lists are windows of the run that suits them; few are of any length.
    fn set_lists(&mut self) {
        let [objects, channels] = [self.objects, self.channels];
        let tracks = 2 * objects;
        let labels = tracks + 2 * channels;
        let all = |number| (number, number);
        let least = if self.random.chance(30) { 1 } else { objects };
        self.set((PROGRAMME, programme::CONTENTS), 0, tracks, (least, objects));
        self.set((PROGRAMME, programme::LABELS), labels, self.languages, (0, self.languages));
        self.set((CONTENT, content::LABELS), labels, self.languages, (0, self.languages));
        if channels > 1 {
            self.set((OBJECT, object::TRACKS), tracks, 2 * channels, all(channels));
        }
        match self.random.below(4) {
            0 => {}
            1 => self.set((PROGRAMME, programme::SETS), 0, tracks, all(objects)),
            _ => self.set_sets_by_contents(),
        }
        if self.random.chance(10) {
            self.set((OBJECT, object::COMPLEMENTS), 0, tracks, (0, 2));
        }
        if self.random.chance(5) {
            self.set((OBJECT, object::CHILDREN), 0, tracks, (0, 2));
        }
    }

    /// Set lists that are the content lists, as set n is of the object that content n
    /// names; few are shorter.
    fn set_sets_by_contents(&mut self) {
        for record in 0..usize::from(self.words[2 * usize::from(PROGRAMME)]) {
            let contents = position(&self.words, PROGRAMME, record, programme::CONTENTS);
            let [first, count] = [self.words[contents], self.words[contents + 1]];
            let less = u16::from(count > 0 && self.random.chance(5));
            overwrite(&mut self.words, PROGRAMME, record, programme::SETS, first);
            overwrite(&mut self.words, PROGRAMME, record, programme::SETS + 1, count - less);
        }
    }

    /// New lists for all records of a section: windows of a part of the run.
    fn set(
        &mut self,
        (section, field): (u8, usize),
        start: usize,
        length: usize,
        (least, most): (usize, usize),
    ) {
        let run = 2 * self.objects + 2 * self.channels + self.languages;
        let start = usize::from(self.words[12]) - run + start;
        for record in 0..usize::from(self.words[2 * usize::from(section)]) {
            let count = match self.random.chance(1) {
                true => self.random.between(0, length),
                false => self.random.between(least, most),
            };
            let first = start + self.random.below(length - count + 1);
            overwrite(&mut self.words, section, record, field, word(first));
            overwrite(&mut self.words, section, record, field + 1, word(count));
        }
    }
}

/// Top objects with a set each, some of them in groups, and programmes of them all.
fn plan(random: &mut Random, objects: usize, channels: usize) -> Plan {
    let mut plan = Plan::new(0);
    plan.add_pack(1, word(channels), 0);
    plan.add_pack(1, word(channels), 0);
    for number in 0..objects {
        let object = plan.add_object(0);
        plan.add_content(object);
        plan.add_sets(object, &[ValueSet::NONE]);
        plan.value_sets[number].values.gain = -(random.below(20) as i16 / 19);
    }
    let group = random.below(objects);
    plan.objects[0].complements = (1..=word(group)).collect();
    for _ in 0..random.between(1, 30) {
        plan.add_programme((0..word(objects)).collect());
    }
    plan.shares_entries = true;
    plan
}
