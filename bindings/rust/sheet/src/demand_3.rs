//! Demand 3: what holds of state and listing after any list of calls from an opening. It is worked
//! out from the plan of the sheet, not from the sheet as a listener reads it.

use std::iter;

use crate::build::{Object, Plan, Values, ABSENT, NO_PACK, NO_RANGE, SILENCE};
use crate::second::listener::{ObjectState, State};
use crate::second::values::Gain;

/// A promise that is broken, in words.
pub type Kept = Result<(), String>;

/// What is demanded while a programme is chosen.
pub struct Demand<'a> {
    /// The plan of the sheet, which is accepted and of level 1 or 2.
    pub plan: &'a Plan,
    /// "That of the last programme choice not refused, 0 if there is none."
    pub programme: usize,
}

impl Demand<'_> {
    /// The whole of demand 3 on the state and the entries of its listing.
    pub fn check(&self, state: &State, entries: &[u16]) -> Kept {
        keep(state.programme == self.programme, || format!("programme {}", state.programme))?;
        self.check_number(entries)?;
        self.check_entries(state, entries)?;
        self.check_activity(state)?;
        let included = self.included().into_iter();
        included.map(usize::from).try_for_each(|o| self.check_values(o, &state.objects[o]))
    }

    fn included(&self) -> Vec<u16> {
        let contents = &self.plan.programmes[self.programme].contents;
        contents.iter().map(|&content| self.plan.contents[usize::from(content)].object).collect()
    }

    /// Leaders with their complements, where all are included.
    fn whole_groups(&self) -> Vec<Vec<u16>> {
        let included = self.included();
        let objects = self.plan.objects.iter().zip(0u16..);
        objects
            .filter(|(object, _)| !object.complements.is_empty())
            .map(|(object, leader)| [vec![leader], object.complements.clone()].concat())
            .filter(|group| group.iter().all(|member| included.contains(member)))
            .collect()
    }

    /// That there is an entry, no more than the level's counted tracks, and each is a track.
    fn check_number(&self, entries: &[u16]) -> Kept {
        let most = if self.plan.level == 1 { 16 } else { 28 };
        let number = entries.len();
        keep((1..=most).contains(&number), || format!("{number} entries"))?;
        let is_track = |&track: &u16| usize::from(track) < self.plan.tracks.len();
        keep(entries.iter().all(is_track), || format!("no track in {entries:?}"))
    }

    /// That the entries are those of the sounding objects, each of which has every channel of
    /// its pack exactly once.
    fn check_entries(&self, state: &State, entries: &[u16]) -> Kept {
        let mut left = entries;
        for (record, _) in self.plan.objects.iter().zip(&state.objects).filter(|(_, s)| s.active) {
            let children = record.children.iter().map(|&c| &self.plan.objects[usize::from(c)]);
            for sounding in iter::once(record).chain(children).filter(|o| o.pack != NO_PACK) {
                let channels = self.plan.packs[usize::from(sounding.pack)].channels;
                let own = left.split_at_checked(channels.into());
                let (own, rest) = own.ok_or_else(|| format!("too few entries: {entries:?}"))?;
                self.check_own(sounding, own)?;
                left = rest;
            }
        }
        keep(left.is_empty(), || format!("entries of no sounding object: {left:?}"))
    }

    /// That an object's own entries are each channel of its pack once.
    fn check_own(&self, object: &Object, own: &[u16]) -> Kept {
        let tracks = own.iter().map(|&track| self.plan.tracks[usize::from(track)]);
        let mut channels: Vec<(u16, u16)> = tracks.map(|t| (t.pack, t.ordinal)).collect();
        channels.sort();
        let all = (0..).zip(own).map(|(ordinal, _)| (object.pack, ordinal));
        keep(channels.iter().copied().eq(all), || format!("pack {}: {own:?}", object.pack))
    }

    /// That one member of each wholly included group is active, each other included object is,
    /// and nothing else.
    fn check_activity(&self, state: &State) -> Kept {
        let is_active = |object: &u16| state.objects[usize::from(*object)].active;
        let mut others = self.included();
        let mut active = 0;
        for group in self.whole_groups() {
            let number = group.iter().filter(|member| is_active(member)).count();
            keep(number == 1, || format!("{number} active of group {group:?}"))?;
            others.retain(|object| !group.contains(object));
            active += 1;
        }
        keep(others.iter().all(is_active), || format!("inactive: one of {others:?}"))?;
        let all = state.objects.iter().filter(|object| object.active).count();
        keep(all == active + others.len(), || format!("{all} active objects"))
    }

    /// The words that grant ranges to an object, and those that give its start values.
    fn granted_and_start(&self, object: usize) -> (Values, Values) {
        let record = &self.plan.objects[object];
        let (first, count) = record.set_span;
        let sets = &self.plan.programmes[self.programme].sets;
        let named = sets.iter().find(|&&set| (first..first + count).contains(&set));
        let Some(&set) = named else {
            return (record.values, record.values);
        };
        let set = &self.plan.value_sets[usize::from(set)];
        let own = |value, inherited| if value == ABSENT { inherited } else { value };
        let start = Values {
            gain: own(set.values.gain, record.values.gain),
            offset: own(set.values.offset, record.values.offset),
            ..Values::NONE
        };
        (if set.own == 1 { set.values } else { record.values }, start)
    }

    /// That gain and offset are legal, in the granted range, and the start value where no range
    /// is granted.
    fn check_values(&self, object: usize, state: &ObjectState) -> Kept {
        let (granted, start) = self.granted_and_start(object);
        let gain = match state.gain {
            Gain::Silent => SILENCE,
            Gain::Tenths(tenths) => {
                keep((-600..=210).contains(&tenths), || format!("object {object}: gain {tenths}"))?;
                tenths
            }
        };
        let offset = state.offset;
        keep((-300..=300).contains(&offset), || format!("object {object}: offset {offset}"))?;
        let kept = is_granted(gain, granted.gain_range, start.gain)
            && is_granted(offset, granted.offset_range, start.offset);
        keep(kept, || format!("object {object} outside its range: {state:?}"))
    }
}

/// Whether a value lies in the range, or is the start value where there is none.
fn is_granted(value: i16, range: (i16, i16), start: i16) -> bool {
    match range {
        NO_RANGE => value == if start == ABSENT { 0 } else { start },
        (minimum, maximum) => (minimum..=maximum).contains(&value),
    }
}

fn keep(condition: bool, breach: impl FnOnce() -> String) -> Kept {
    match condition {
        true => Ok(()),
        false => Err(breach()),
    }
}
