//! The second listener: the state that calls take and hand back, and its listing.
//!
//! Every call checks its sheet anew, with the language words lent to that call; what comes after
//! relies on an accepted sheet of level 1 or 2 only.

use std::iter;

use super::terms::{
    effective, groups, included_objects, is_wholly_included, named_sets, owners, Effective,
};
use super::values::{is_legal_offset, Gain, Range};
use super::view::{object, Sheet, OBJECT, PROGRAMME, VALUE_SET};
use super::{check, Verdict};

/// The number of objects in a state, the most that level 2 allows.
pub const OBJECTS: usize = 84;

/// The refusals; a call meets them in the order of their numbers.
#[derive(Clone, Copy, Debug, PartialEq, Eq)]
pub enum Refusal {
    /// "The sheet isn't accepted, or is level 0."
    SheetNotAccepted = 25,
    /// "The state isn't sound for the sheet."
    StateNotSound = 26,
    /// "No such programme."
    NoSuchProgramme = 27,
    /// "The object isn't included in the programme."
    ObjectNotIncluded = 28,
    /// "The object isn't in a wholly included group."
    NotInWhollyIncludedGroup = 29,
    /// "No effective range of that sort."
    NoRange = 30,
    /// "The value isn't legal or is outside that range."
    ValueOutsideRange = 31,
    /// "The listing buffer has too few words."
    BufferTooSmall = 32,
}

impl Refusal {
    /// The number in document 01.
    pub fn number(self) -> u8 {
        self as u8
    }
}

/// Done, or refused.
pub type Answer = Result<(), Refusal>;

/// The state of one object.
#[derive(Clone, Copy, Debug, PartialEq, Eq)]
pub struct ObjectState {
    /// Whether it is active.
    pub active: bool,
    /// Its gain.
    pub gain: Gain,
    /// Its offset, in tenths of a degree.
    pub offset: i16,
}

impl ObjectState {
    /// "Inactive, 0, 0."
    pub const AT_REST: ObjectState =
        ObjectState { active: false, gain: Gain::Tenths(0), offset: 0 };
}

/// "A programme, and for 84 objects active, gain, offset."
#[derive(Clone, Debug, PartialEq, Eq)]
pub struct State {
    /// The chosen programme.
    pub programme: usize,
    /// The objects, by index.
    pub objects: [ObjectState; OBJECTS],
}

impl State {
    /// "Refused opening gives programme 0 and 84 times inactive, 0, 0."
    pub const AT_REST: State = State { programme: 0, objects: [ObjectState::AT_REST; OBJECTS] };

    /// Opens a sheet: "opening chooses 0". Meets 25 only.
    pub fn open(sheet: &[u8], langs: &[u8]) -> (State, Answer) {
        let started = accepted_sheet(sheet, langs).map(|sheet| Chosen::new(sheet, 0).start());
        State::AT_REST.answer(started)
    }

    /// Chooses a programme, which starts it. Meets 25 to 27.
    pub fn choose_programme(self, sheet: &[u8], langs: &[u8], programme: usize) -> (State, Answer) {
        let started = self.chosen(sheet, langs).and_then(|chosen| {
            let exists = programme < chosen.sheet.count(PROGRAMME);
            refuse_unless(exists, Refusal::NoSuchProgramme)?;
            Ok(Chosen::new(chosen.sheet, programme).start())
        });
        self.answer(started)
    }

    /// "Choosing an object makes it active and the rest of its group inactive." Meets 25,
    /// 26, 28 and 29.
    pub fn choose_object(self, sheet: &[u8], langs: &[u8], object: usize) -> (State, Answer) {
        let changed = self.chosen(sheet, langs).and_then(|chosen| {
            refuse_unless(chosen.includes(object), Refusal::ObjectNotIncluded)?;
            let group = chosen.group_of(object).ok_or(Refusal::NotInWhollyIncludedGroup)?;
            let mut state = self.clone();
            for &member in group {
                state.objects[member].active = member == object;
            }
            Ok(state)
        });
        self.answer(changed)
    }

    /// Stores a gain in an object, active or not. Meets 25, 26, 28, 30 and 31.
    pub fn set_gain(
        self,
        sheet: &[u8],
        langs: &[u8],
        object: usize,
        gain: Gain,
    ) -> (State, Answer) {
        let changed = self.with_object(sheet, langs, object, |granted, object| {
            let range = granted.gain_range.ok_or(Refusal::NoRange)?;
            refuse_unless(is_allowed_gain(gain, &range), Refusal::ValueOutsideRange)?;
            object.gain = gain;
            Ok(())
        });
        self.answer(changed)
    }

    /// Stores an offset in an object, active or not. Meets 25, 26, 28, 30 and 31.
    pub fn set_offset(
        self,
        sheet: &[u8],
        langs: &[u8],
        object: usize,
        offset: i16,
    ) -> (State, Answer) {
        let changed = self.with_object(sheet, langs, object, |granted, object| {
            let range = granted.offset_range.ok_or(Refusal::NoRange)?;
            refuse_unless(is_allowed_offset(offset, &range), Refusal::ValueOutsideRange)?;
            object.offset = offset;
            Ok(())
        });
        self.answer(changed)
    }

    /// The state with one included object changed, under what the programme grants it.
    fn with_object(
        &self,
        sheet: &[u8],
        langs: &[u8],
        object: usize,
        change: impl FnOnce(Effective, &mut ObjectState) -> Answer,
    ) -> Result<State, Refusal> {
        let chosen = self.chosen(sheet, langs)?;
        refuse_unless(chosen.includes(object), Refusal::ObjectNotIncluded)?;
        let mut state = self.clone();
        change(chosen.effective(object), &mut state.objects[object])?;
        Ok(state)
    }

    /// Writes the listing and gives the number of entries. Meets 25, 26 and 32; a refused
    /// listing writes nothing.
    pub fn list(&self, sheet: &[u8], langs: &[u8], buffer: &mut [u16]) -> Result<usize, Refusal> {
        let chosen = self.chosen(sheet, langs)?;
        let entries = self.entries(chosen.sheet);
        let space = buffer.get_mut(..entries.len()).ok_or(Refusal::BufferTooSmall)?;
        space.copy_from_slice(&entries);
        Ok(entries.len())
    }

    /// Whether the state is sound for an accepted sheet of level 1 or 2.
    pub fn is_sound(&self, sheet: &[u8], langs: &[u8]) -> bool {
        self.chosen(sheet, langs).is_ok()
    }

    /// The state handed back: the new one, or this one where the call is refused.
    fn answer(self, new: Result<State, Refusal>) -> (State, Answer) {
        match new {
            Ok(state) => (state, Ok(())),
            Err(refusal) => (self, Err(refusal)),
        }
    }

    /// The chosen programme, after the checks 25 and 26.
    fn chosen<'a>(&self, sheet: &'a [u8], langs: &'a [u8]) -> Result<Chosen<'a>, Refusal> {
        let sheet = accepted_sheet(sheet, langs)?;
        refuse_unless(self.programme < sheet.count(PROGRAMME), Refusal::StateNotSound)?;
        let chosen = Chosen::new(sheet, self.programme);
        refuse_unless(chosen.makes_sound(self), Refusal::StateNotSound)?;
        Ok(chosen)
    }

    /// "The tracks of active objects by rising index, children in list order, tracks in
    /// list order."
    fn entries(&self, sheet: Sheet) -> Vec<u16> {
        sheet
            .records(OBJECT)
            .filter(|object| self.objects[object.index].active)
            .flat_map(|object| iter::once(object).chain(object.named(object::CHILDREN, OBJECT)))
            .flat_map(|sounding| sounding.entries(object::TRACKS))
            .map(|track| track as u16)
            .collect()
    }
}

/// The listing of a programme's start, for host players: "takes sheet, programme number
/// and buffer, refuses by 25, 27, 32, and writes each track as two bytes, high first. It
/// gives the number of entries, or the refusal's number negated."
pub fn start_listing(sheet: &[u8], langs: &[u8], programme: usize, buffer: &mut [u8]) -> i32 {
    match listed_start(sheet, langs, programme, buffer) {
        Ok(entries) => entries as i32,
        Err(refusal) => -i32::from(refusal.number()),
    }
}

fn listed_start(
    sheet: &[u8],
    langs: &[u8],
    programme: usize,
    buffer: &mut [u8],
) -> Result<usize, Refusal> {
    let sheet = accepted_sheet(sheet, langs)?;
    refuse_unless(programme < sheet.count(PROGRAMME), Refusal::NoSuchProgramme)?;
    let entries = Chosen::new(sheet, programme).start().entries(sheet);
    let bytes: Vec<u8> = entries.iter().flat_map(|track| track.to_be_bytes()).collect();
    let space = buffer.get_mut(..bytes.len()).ok_or(Refusal::BufferTooSmall)?;
    space.copy_from_slice(&bytes);
    Ok(entries.len())
}

/// The check 25.
fn accepted_sheet<'a>(sheet: &'a [u8], langs: &'a [u8]) -> Result<Sheet<'a>, Refusal> {
    let verdict = check(sheet, langs);
    let sheet = Sheet::new(sheet, langs);
    let opens = verdict == Verdict::Accepted && sheet.level() != 0;
    refuse_unless(opens, Refusal::SheetNotAccepted)?;
    Ok(sheet)
}

fn refuse_unless(condition: bool, refusal: Refusal) -> Answer {
    match condition {
        true => Ok(()),
        false => Err(refusal),
    }
}

/// Whether a gain is legal in a range.
fn is_allowed_gain(gain: Gain, range: &Range<Gain>) -> bool {
    gain.is_legal() && range.holds(&gain)
}

/// Whether an offset is legal in a range.
fn is_allowed_offset(offset: i16, range: &Range<i16>) -> bool {
    is_legal_offset(offset) && range.holds(&offset)
}

/// A programme of an accepted sheet, and what it settles.
struct Chosen<'a> {
    sheet: Sheet<'a>,
    programme: usize,
    /// For each object whether it is included.
    included: Vec<bool>,
    /// The wholly included groups, each with its leader first.
    groups: Vec<Vec<usize>>,
    /// For each object the value set that the programme names.
    sets: Vec<Option<usize>>,
}

impl<'a> Chosen<'a> {
    fn new(sheet: Sheet<'a>, programme: usize) -> Chosen<'a> {
        let record = sheet.record(PROGRAMME, programme);
        let included = included_objects(&record);
        let mut groups = groups(sheet);
        groups.retain(|group| is_wholly_included(group, &included));
        let sets = named_sets(&record, &owners(sheet));
        Chosen { sheet, programme, included, groups, sets }
    }

    fn includes(&self, object: usize) -> bool {
        self.included.get(object) == Some(&true)
    }

    /// The wholly included group that the object is in.
    fn group_of(&self, object: usize) -> Option<&Vec<usize>> {
        self.groups.iter().find(|group| group.contains(&object))
    }

    /// "Ranges come from the programme's set, else the object", and so do start values.
    fn effective(&self, object: usize) -> Effective {
        let set = self.sets[object].map(|set| self.sheet.record(VALUE_SET, set));
        effective(&self.sheet.record(OBJECT, object), set.as_ref())
    }

    /// "Included objects take the effective gain and offset of the set that the programme
    /// names, or their own, or 0. Active are included objects, but of a wholly included
    /// group the leader only. All others are inactive, 0, 0."
    fn start(&self) -> State {
        let mut state = State { programme: self.programme, ..State::AT_REST };
        for object in (0..OBJECTS).filter(|&object| self.includes(object)) {
            let Effective { gain, offset, .. } = self.effective(object);
            let active = self.group_of(object).is_none_or(|group| group[0] == object);
            state.objects[object] = ObjectState { active, gain, offset };
        }
        state
    }

    /// "Activity is as started, except that any one member of a wholly included group may
    /// be the active one; each included object's gain and offset is its start value or
    /// legal in its range; the rest are inactive, 0, 0."
    fn makes_sound(&self, state: &State) -> bool {
        let start = self.start();
        let one_active = |group: &Vec<usize>| {
            group.iter().filter(|&&member| state.objects[member].active).count() == 1
        };
        let object_sound = |object: usize| {
            let (now, started) = (&state.objects[object], &start.objects[object]);
            match self.includes(object) {
                false => *now == ObjectState::AT_REST,
                true => {
                    (now.active == started.active || self.group_of(object).is_some())
                        && self.values_sound(object, now, started)
                }
            }
        };
        self.groups.iter().all(one_active) && (0..OBJECTS).all(object_sound)
    }

    fn values_sound(&self, object: usize, now: &ObjectState, started: &ObjectState) -> bool {
        let Effective { gain_range, offset_range, .. } = self.effective(object);
        let in_gain_range = gain_range.is_some_and(|range| is_allowed_gain(now.gain, &range));
        let in_offset_range =
            offset_range.is_some_and(|range| is_allowed_offset(now.offset, &range));
        (now.gain == started.gain || in_gain_range)
            && (now.offset == started.offset || in_offset_range)
    }
}
