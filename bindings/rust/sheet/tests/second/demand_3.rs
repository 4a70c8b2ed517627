//! Demand 3 on random lists of calls.

use std::collections::BTreeSet;

use sheet::build::Plan;
use sheet::demand_3::Demand;
use sheet::generate::accepted;
use sheet::generate::calls::{changed_state, random_call, Call};
use sheet::generate::languages::lists::{self, REAL};
use sheet::generate::random::Random;
use sheet::generate::stored_scripts::sheets::mixed;
use sheet::second::listener::{Refusal, State};
use sheet::second::values::Gain;

fn assert_kept(demand: &Demand, state: &State, sheet: &[u8], langs: &[u8]) {
    let mut buffer = [0; 28];
    let entries = state.list(sheet, langs, &mut buffer).expect("25 and 26 never come");
    assert_eq!(demand.check(state, &buffer[..entries]), Ok(()));
}

#[test]
fn demand_3_holds_after_every_list_of_calls() {
    let mut random = Random::new(4);
    for number in 0..300 {
        let plan = accepted::plan(&mut random, 1 + number % 2);
        let sheet = plan.bytes();
        let langs = lists::of(lists::held(&sheet));
        let (mut state, answer) = State::open(&sheet, &langs);
        assert_eq!(answer, Ok(()));
        let mut demand = Demand { plan: &plan, programme: 0 };
        assert_kept(&demand, &state, &sheet, &langs);
        for _ in 0..60 {
            let call = random_call(&mut random, &plan);
            let (handed_back, answer) = call.make(state, &sheet, &langs);
            if let (Call::ChooseProgramme(programme), Ok(())) = (call, answer) {
                demand.programme = programme.into();
            }
            state = handed_back;
            assert_kept(&demand, &state, &sheet, &langs);
        }
    }
}

/// The numbers of the refusals that random calls meet, 0 for a call that is done.
fn numbers_met(change: impl Fn(&mut Random, &Plan, State) -> State) -> BTreeSet<u8> {
    let mut random = Random::new(5);
    let mut met = BTreeSet::new();
    for number in 0..300 {
        let plan = accepted::plan(&mut random, 1 + number % 2);
        let sheet = plan.bytes();
        let langs = lists::of(lists::held(&sheet));
        let state = change(&mut random, &plan, State::open(&sheet, &langs).0);
        for _ in 0..20 {
            let (_, answer) = random_call(&mut random, &plan).make(state.clone(), &sheet, &langs);
            met.insert(answer.map_or_else(Refusal::number, |()| 0));
        }
    }
    met
}

#[test]
fn random_calls_are_done_and_refused_in_every_way() {
    let met = numbers_met(|_, _, state| state);
    assert_eq!(met, BTreeSet::from([0, 27, 28, 29, 30, 31]));
    let met = numbers_met(changed_state);
    assert_eq!(met, BTreeSet::from([0, 26, 27, 28, 29, 30, 31]));
}

/// The sheet `mixed` as it opens, with its listing.
fn opened_mixed() -> (Plan, State, Vec<u16>) {
    let plan = mixed();
    let (state, answer) = State::open(&plan.bytes(), REAL);
    assert_eq!(answer, Ok(()));
    (plan, state, vec![0, 2, 1])
}

#[test]
fn wrong_listings_break_demand_3() {
    let (plan, state, entries) = opened_mixed();
    let demand = Demand { plan: &plan, programme: 0 };
    assert_eq!(demand.check(&state, &entries), Ok(()));
    let wrong: [&[u16]; 7] =
        [&[], &[0, 2], &[0, 2, 2], &[1, 2, 0], &[0, 2, 1, 3], &[0, 2, 9], &[0; 17]];
    for entries in wrong {
        assert!(demand.check(&state, entries).is_err(), "{entries:?}");
    }
    assert_eq!(demand.check(&state, &[3, 2, 1]), Ok(()), "another track of the same channel");
}

#[test]
fn wrong_states_break_demand_3() {
    let (plan, state, entries) = opened_mixed();
    let demand = Demand { plan: &plan, programme: 0 };
    let changes: [fn(&mut State); 9] = [
        |state| state.programme = 1,
        |state| state.objects[0].active = false,
        |state| state.objects[2].active = true,
        |state| state.objects[83].active = true,
        |state| state.objects[0].gain = Gain::Tenths(61),
        |state| state.objects[0].gain = Gain::Silent,
        |state| state.objects[2].offset = -101,
        |state| state.objects[1].gain = Gain::Tenths(0),
        |state| state.objects[1].offset = 1,
    ];
    for (number, change) in changes.iter().enumerate() {
        let mut state = state.clone();
        change(&mut state);
        assert!(demand.check(&state, &entries).is_err(), "change {number}");
    }
}
