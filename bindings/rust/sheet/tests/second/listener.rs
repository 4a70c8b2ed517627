//! Scripts of listener calls, worked out by hand from document 01 on the sheet `mixed`.

use sheet::generate::stored_scripts::sheets::mixed;
use sheet::second::listener::{start_listing, Answer, ObjectState, Refusal, State};
use sheet::second::values::Gain;
use sheet::second::{check, Verdict};

/// "eng" and "fra", the languages of `mixed`.
const LANGS: [u8; 4] = [21, 199, 26, 65];

fn sheet() -> Vec<u8> {
    mixed().bytes()
}

fn opened() -> State {
    let (state, answer) = State::open(&sheet(), &LANGS);
    assert_eq!(answer, Ok(()));
    state
}

/// The state after a call that isn't refused.
fn done((state, answer): (State, Answer)) -> State {
    assert_eq!(answer, Ok(()));
    state
}

/// That a call is refused by the number, and hands back the state that it took.
fn assert_refused(taken: &State, (handed_back, answer): (State, Answer), number: u8) {
    assert_eq!(answer.map_err(Refusal::number), Err(number));
    assert_eq!(&handed_back, taken);
}

fn active(tenths: i16, offset: i16) -> ObjectState {
    ObjectState { active: true, gain: Gain::Tenths(tenths), offset }
}

fn inactive(tenths: i16, offset: i16) -> ObjectState {
    ObjectState { active: false, ..active(tenths, offset) }
}

/// A state of the programme and the first objects, the rest at rest.
fn state(programme: usize, first: &[ObjectState]) -> State {
    let mut state = State { programme, ..State::AT_REST };
    state.objects[..first.len()].copy_from_slice(first);
    state
}

fn listing(state: &State) -> Vec<u16> {
    let mut buffer = [0; 28];
    let entries = state.list(&sheet(), &LANGS, &mut buffer).expect("the listing isn't refused");
    buffer[..entries].to_vec()
}

#[test]
fn the_sheet_is_accepted() {
    assert_eq!(check(&sheet(), &LANGS), Verdict::Accepted);
}

#[test]
fn opening_starts_programme_0() {
    let started = state(0, &[active(10, 0), active(-30, 0), inactive(10, 0)]);
    assert_eq!(opened(), started);
    assert_eq!(listing(&opened()), [0, 2, 1]);
}

#[test]
fn a_refused_opening_gives_the_resting_state() {
    let (state, answer) = State::open(&[], &LANGS);
    assert_eq!(answer, Err(Refusal::SheetNotAccepted));
    assert_eq!(state.programme, 0);
    assert_eq!(state.objects.to_vec(), vec![inactive(0, 0); 84]);
}

#[test]
fn choosing_programmes_starts_them() {
    let rest = ObjectState::AT_REST;
    let first = done(opened().choose_programme(&sheet(), &LANGS, 1));
    assert_eq!(first, state(1, &[rest, rest, active(20, 0), active(0, 0)]));
    assert_eq!(listing(&first), [3, 3, 0]);
    let second = done(first.choose_programme(&sheet(), &LANGS, 2));
    assert_eq!(second, state(2, &[active(20, 0), rest, inactive(20, 0)]));
    assert_eq!(listing(&second), [0]);
    assert_eq!(done(second.choose_programme(&sheet(), &LANGS, 0)), opened());
}

#[test]
fn choosing_an_object_moves_activity_within_its_group() {
    let second = done(opened().choose_object(&sheet(), &LANGS, 2));
    assert_eq!(second, state(0, &[inactive(10, 0), active(-30, 0), active(10, 0)]));
    assert_eq!(listing(&second), [2, 1, 3]);
    let same = done(second.clone().choose_object(&sheet(), &LANGS, 2));
    assert_eq!(same, second);
    assert_eq!(done(same.choose_object(&sheet(), &LANGS, 0)), opened());
}

#[test]
fn gains_and_offsets_are_stored_active_or_not() {
    let changed = done(opened().set_gain(&sheet(), &LANGS, 0, Gain::Tenths(-60)));
    let changed = done(changed.set_gain(&sheet(), &LANGS, 2, Gain::Tenths(60)));
    let changed = done(changed.set_offset(&sheet(), &LANGS, 2, -100));
    let changed = done(changed.set_offset(&sheet(), &LANGS, 0, 100));
    let stored = state(0, &[active(-60, 100), active(-30, 0), inactive(60, -100)]);
    assert_eq!(changed, stored);
    let moved = done(changed.choose_object(&sheet(), &LANGS, 2));
    let kept = state(0, &[inactive(-60, 100), active(-30, 0), active(60, -100)]);
    assert_eq!(moved, kept);
    assert_eq!(done(moved.choose_programme(&sheet(), &LANGS, 0)), opened());
}

#[test]
fn silence_is_a_gain_where_the_range_has_it_and_sounds() {
    let first = done(opened().choose_programme(&sheet(), &LANGS, 1));
    let silent = done(first.set_gain(&sheet(), &LANGS, 3, Gain::Silent));
    assert_eq!(silent.objects[3].gain, Gain::Silent);
    assert_eq!(listing(&silent), [3, 3, 0]);
}

#[test]
fn sheets_that_are_not_accepted_or_of_level_0_are_25() {
    let mut plan = mixed();
    plan.level = 0;
    assert_eq!(check(&plan.bytes(), &LANGS), Verdict::Accepted);
    for sheet in [plan.bytes(), vec![], sheet()[1..].to_vec()] {
        assert_refused(&State::AT_REST, State::open(&sheet, &LANGS), 25);
        let state = opened();
        assert_refused(&state, state.clone().choose_programme(&sheet, &LANGS, 0), 25);
        assert_refused(&state, state.clone().choose_object(&sheet, &LANGS, 2), 25);
        assert_refused(&state, state.clone().set_gain(&sheet, &LANGS, 0, Gain::Tenths(0)), 25);
        assert_refused(&state, state.clone().set_offset(&sheet, &LANGS, 0, 0), 25);
        assert_eq!(state.list(&sheet, &LANGS, &mut [0; 28]), Err(Refusal::SheetNotAccepted));
        assert_eq!(start_listing(&sheet, &LANGS, 0, &mut [0; 56]), -25);
    }
}

#[test]
fn calls_on_a_state_that_is_not_sound_are_26() {
    let mut state = opened();
    state.objects[83].offset = 1;
    assert_refused(&state, state.clone().choose_programme(&sheet(), &LANGS, 9), 26);
    assert_refused(&state, state.clone().choose_object(&sheet(), &LANGS, 84), 26);
    assert_refused(&state, state.clone().set_gain(&sheet(), &LANGS, 84, Gain::Tenths(0)), 26);
    assert_refused(&state, state.clone().set_offset(&sheet(), &LANGS, 84, 0), 26);
    assert_eq!(state.list(&sheet(), &LANGS, &mut []), Err(Refusal::StateNotSound));
}

/// Whether the state of programme 0 stays sound after a change.
fn sound_after(change: fn(&mut State)) -> bool {
    let mut state = opened();
    change(&mut state);
    state.is_sound(&sheet(), &LANGS)
}

#[test]
fn sound_states() {
    assert!(sound_after(|_| ()));
    assert!(sound_after(|state| state.objects[0].gain = Gain::Tenths(-60)));
    assert!(sound_after(|state| state.objects[2].gain = Gain::Tenths(60)));
    assert!(sound_after(|state| state.objects[2].offset = -100));
    assert!(sound_after(|state| state.objects.swap(0, 2)));
}

#[test]
fn states_with_unsound_activity() {
    assert!(!sound_after(|state| state.programme = 3));
    assert!(!sound_after(|state| state.programme = 1));
    assert!(!sound_after(|state| state.objects[0].active = false));
    assert!(!sound_after(|state| state.objects[1].active = false));
    assert!(!sound_after(|state| state.objects[2].active = true));
    assert!(!sound_after(|state| state.objects[3].active = true));
    assert!(!sound_after(|state| state.objects[4].active = true));
    assert!(!sound_after(|state| state.objects[83].active = true));
}

#[test]
fn states_with_unsound_values() {
    assert!(!sound_after(|state| state.objects[0].gain = Gain::Tenths(61)));
    assert!(!sound_after(|state| state.objects[0].gain = Gain::Silent));
    assert!(!sound_after(|state| state.objects[2].gain = Gain::Tenths(-32768)));
    assert!(!sound_after(|state| state.objects[1].gain = Gain::Tenths(0)));
    assert!(!sound_after(|state| state.objects[0].offset = 101));
    assert!(!sound_after(|state| state.objects[1].offset = 1));
    assert!(!sound_after(|state| state.objects[3].gain = Gain::Tenths(-1)));
    assert!(!sound_after(|state| state.objects[5].offset = 1));
    assert!(!sound_after(|state| state.objects[6].gain = Gain::Silent));
}

#[test]
fn a_gain_of_tenths_that_is_no_gain_is_unsound_under_a_range_from_silence() {
    let mut state = done(opened().choose_programme(&sheet(), &LANGS, 1));
    assert!(state.is_sound(&sheet(), &LANGS));
    for tenths in [-601, -32768] {
        state.objects[3].gain = Gain::Tenths(tenths);
        assert!(!state.is_sound(&sheet(), &LANGS), "{tenths}");
    }
}

#[test]
fn resting_is_sound_for_no_programme() {
    assert!(!State::AT_REST.is_sound(&sheet(), &LANGS));
}

#[test]
fn a_programme_that_the_sheet_lacks_is_27() {
    let state = done(opened().set_gain(&sheet(), &LANGS, 0, Gain::Tenths(5)));
    assert_refused(&state, state.clone().choose_programme(&sheet(), &LANGS, 3), 27);
    assert_refused(&state, state.clone().choose_programme(&sheet(), &LANGS, 65535), 27);
    assert_eq!(start_listing(&sheet(), &LANGS, 3, &mut []), -27);
}

#[test]
fn objects_that_are_not_included_are_28() {
    for object in [3, 4, 5, 6, 83, 84, 65535] {
        let state = opened();
        assert_refused(&state, state.clone().choose_object(&sheet(), &LANGS, object), 28);
        assert_refused(
            &state,
            state.clone().set_gain(&sheet(), &LANGS, object, Gain::Tenths(0)),
            28,
        );
        assert_refused(&state, state.clone().set_offset(&sheet(), &LANGS, object, 301), 28);
    }
}

#[test]
fn objects_in_no_wholly_included_group_are_29() {
    let state = opened();
    assert_refused(&state, state.clone().choose_object(&sheet(), &LANGS, 1), 29);
    let state = done(state.choose_programme(&sheet(), &LANGS, 1));
    assert_refused(&state, state.clone().choose_object(&sheet(), &LANGS, 2), 29);
    assert_refused(&state, state.clone().choose_object(&sheet(), &LANGS, 0), 28);
}

#[test]
fn objects_without_a_range_are_30() {
    let state = opened();
    assert_refused(&state, state.clone().set_gain(&sheet(), &LANGS, 1, Gain::Tenths(-30)), 30);
    assert_refused(&state, state.clone().set_gain(&sheet(), &LANGS, 1, Gain::Tenths(500)), 30);
    assert_refused(&state, state.clone().set_offset(&sheet(), &LANGS, 1, 0), 30);
    let state = done(state.choose_programme(&sheet(), &LANGS, 1));
    assert_refused(&state, state.clone().set_offset(&sheet(), &LANGS, 2, 0), 30);
    assert_refused(&state, state.clone().set_offset(&sheet(), &LANGS, 3, 0), 30);
}

#[test]
fn values_outside_a_range_are_31() {
    let state = opened();
    for gain in [-61, 61, 500, 32767, -32768].map(Gain::Tenths) {
        assert_refused(&state, state.clone().set_gain(&sheet(), &LANGS, 0, gain), 31);
    }
    assert_refused(&state, state.clone().set_gain(&sheet(), &LANGS, 2, Gain::Silent), 31);
    for offset in [-101, 101, 301, 32767, -32768] {
        assert_refused(&state, state.clone().set_offset(&sheet(), &LANGS, 2, offset), 31);
    }
}

#[test]
fn the_range_is_that_of_the_set_that_the_programme_names() {
    let state = done(opened().choose_programme(&sheet(), &LANGS, 2));
    for gain in [-21, 41].map(Gain::Tenths) {
        assert_refused(&state, state.clone().set_gain(&sheet(), &LANGS, 2, gain), 31);
    }
    let state = done(state.set_gain(&sheet(), &LANGS, 2, Gain::Tenths(-20)));
    let state = done(state.set_gain(&sheet(), &LANGS, 0, Gain::Tenths(40)));
    let rest = ObjectState::AT_REST;
    assert_eq!(state, self::state(2, &[active(40, 0), rest, inactive(-20, 0)]));
    let state = done(state.choose_programme(&sheet(), &LANGS, 1));
    for tenths in [1, -601, -32768] {
        let call = state.clone().set_gain(&sheet(), &LANGS, 3, Gain::Tenths(tenths));
        assert_refused(&state, call, 31);
    }
}

#[test]
fn buffers_with_too_few_words_are_32_and_stay() {
    let mut buffer = [7; 4];
    let state = opened();
    assert_eq!(state.list(&sheet(), &LANGS, &mut buffer[..2]), Err(Refusal::BufferTooSmall));
    assert_eq!(buffer, [7, 7, 7, 7]);
    assert_eq!(state.list(&sheet(), &LANGS, &mut buffer[..3]), Ok(3));
    assert_eq!(buffer, [0, 2, 1, 7]);
    assert_eq!(state.list(&sheet(), &LANGS, &mut []), Err(Refusal::BufferTooSmall));
    let second = done(state.choose_programme(&sheet(), &LANGS, 2));
    assert_eq!(second.list(&sheet(), &LANGS, &mut buffer), Ok(1));
    assert_eq!(buffer, [0, 2, 1, 7]);
}

#[test]
fn the_hosts_listing_of_a_start() {
    let mut buffer = [9; 8];
    assert_eq!(start_listing(&sheet(), &LANGS, 0, &mut buffer[..5]), -32);
    assert_eq!(buffer, [9; 8]);
    assert_eq!(start_listing(&sheet(), &LANGS, 0, &mut buffer[..7]), 3);
    assert_eq!(buffer, [0, 0, 0, 2, 0, 1, 9, 9]);
    assert_eq!(start_listing(&sheet(), &LANGS, 1, &mut buffer), 3);
    assert_eq!(buffer, [0, 3, 0, 3, 0, 0, 9, 9]);
    assert_eq!(start_listing(&sheet(), &LANGS, 2, &mut buffer[..2]), 1);
    assert_eq!(start_listing(&sheet(), &LANGS, 2, &mut []), -32);
    assert_eq!(start_listing(&sheet(), &LANGS, usize::MAX, &mut buffer), -27);
}

/// "eng" alone, "fra" alone, both in falling order, none.
const OTHERS: [&[u8]; 4] = [&[21, 199], &[26, 65], &[26, 65, 21, 199], &[]];

#[test]
fn calls_under_another_list_are_refused_and_done_again_under_the_first() {
    let state = done(opened().set_gain(&sheet(), &LANGS, 0, Gain::Tenths(60)));
    for langs in OTHERS {
        assert_refused(&State::AT_REST, State::open(&sheet(), langs), 25);
        assert_refused(&state, state.clone().choose_programme(&sheet(), langs, 9), 25);
        assert_refused(&state, state.clone().choose_object(&sheet(), langs, 2), 25);
        assert_refused(&state, state.clone().set_gain(&sheet(), langs, 0, Gain::Tenths(0)), 25);
        assert_refused(&state, state.clone().set_offset(&sheet(), langs, 0, 0), 25);
        assert_eq!(state.list(&sheet(), langs, &mut []), Err(Refusal::SheetNotAccepted));
        assert_eq!(start_listing(&sheet(), langs, 9, &mut []), -25);
        assert!(!state.is_sound(&sheet(), langs));
    }
    let state = done(state.set_gain(&sheet(), &LANGS, 2, Gain::Tenths(-60)));
    assert_eq!(state.objects[0].gain, Gain::Tenths(60));
    assert_eq!(listing(&state), [0, 2, 1]);
}

#[test]
fn calls_may_be_lent_another_list_under_which_the_sheet_is_accepted() {
    let longer = [&[1, 1], &LANGS[..], &[255, 255, 7]].concat();
    let state = done(opened().set_gain(&sheet(), &longer, 0, Gain::Tenths(60)));
    assert_eq!(state, done(opened().set_gain(&sheet(), &LANGS, 0, Gain::Tenths(60))));
    assert_eq!(start_listing(&sheet(), &longer, 0, &mut [0; 6]), 3);
}
