//! Random scripts of listener calls on random sheets, with the second listener's answers.

use super::accepted;
use super::calls::{changed_state, random_call};
use super::languages::lend::{lacking, lend, not_rising, with_others};
use super::languages::lists::{self, held};
use super::random::Random;
use super::RandomSheets;
use crate::build::{word, Plan};
use crate::script::{Line, Player, MOST_WORDS};
use crate::second::listener::State;

/// A script, its sheet, and what the second listener answers.
pub struct Script {
    /// The sheet.
    pub sheet: Vec<u8>,
    /// The list of language words that the opening is lent.
    pub langs: Vec<u8>,
    /// The plan of the sheet if demand 3 is due: the sheet is accepted and of level 1 or 2, every
    /// state comes from an opening and calls, and all are lent one list.
    pub due: Option<Plan>,
    /// The lines.
    pub lines: Vec<Line>,
    /// The opening's answer and those to the lines, each with its line end.
    pub answers: String,
}

impl Script {
    /// The script as text.
    pub fn text(&self) -> String {
        self.lines.iter().map(|line| format!("{line}\n")).collect()
    }
}

/// Random scripts without end, from a seed.
pub struct RandomScripts {
    random: Random,
    sheets: RandomSheets,
}

impl RandomScripts {
    /// The scripts of a seed.
    pub fn new(seed: u64) -> RandomScripts {
        RandomScripts { random: Random::new(seed), sheets: RandomSheets::new(seed) }
    }

    /// Calls on an opened sheet; state and listing are asked for after each, and at the end a
    /// listing into few or many words.
    fn after_opening(&mut self) -> Script {
        let plan = random_plan(&mut self.random);
        let sheet = plan.bytes();
        let langs = with_others(&mut self.random, held(&sheet));
        let mut writer = Writer::new(&mut self.random, &plan, &sheet, &langs);
        writer.state_and_listing();
        for _ in 0..writer.random.between(4, 10) {
            writer.opening_or_call();
            writer.state_and_listing();
        }
        writer.listing_into();
        let (lines, answers) = writer.written();
        Script { due: Some(plan), sheet, langs, lines, answers }
    }

    /// Calls on states that came from elsewhere, sound or not.
    fn with_puts(&mut self) -> Script {
        let plan = random_plan(&mut self.random);
        let sheet = plan.bytes();
        let langs = with_others(&mut self.random, held(&sheet));
        let mut writer = Writer::new(&mut self.random, &plan, &sheet, &langs);
        for _ in 0..writer.random.between(2, 4) {
            writer.put_other_state(&sheet, &langs);
            writer.calls_and_listings();
        }
        let (lines, answers) = writer.written();
        Script { due: None, sheet, langs, lines, answers }
    }

    /// Calls that are lent other lists than the opening was: some hold the languages of the sheet,
    /// others don't. At the end its own list is lent again.
    fn with_lends(&mut self) -> Script {
        let level = word(self.random.between(1, 2));
        let plan = accepted::small_plan(&mut self.random, level);
        let sheet = plan.bytes();
        let langs = match self.random.chance(80) {
            true => with_others(&mut self.random, held(&sheet)),
            false => lend(&mut self.random, &sheet, None).0,
        };
        let mut writer = Writer::new(&mut self.random, &plan, &sheet, &langs);
        for _ in 0..writer.random.between(1, 3) {
            writer.calls_and_listings();
            let other = other_list(writer.random, &sheet);
            writer.write(Line::Lend(other));
        }
        writer.calls_and_listings();
        writer.write(Line::Lend(held(&sheet)));
        writer.calls_and_listings();
        let (lines, answers) = writer.written();
        Script { due: None, sheet, langs, lines, answers }
    }

    /// Calls on a sheet of level 0, or on one that may not be accepted; the numbers suit
    /// another sheet.
    fn on_other_sheet(&mut self) -> Script {
        let plan = random_plan(&mut self.random);
        let sheet = match self.random.below(4) {
            0 => accepted::small_plan(&mut self.random, 0).bytes(),
            1 => self.sheets.broken().sheet,
            _ => self.sheets.damaged().sheet,
        };
        let (langs, _) = lend(&mut self.random, &sheet, None);
        let mut writer = Writer::new(&mut self.random, &plan, &sheet, &langs);
        writer.calls_and_listings();
        writer.put_other_state(&sheet, &langs);
        writer.calls_and_listings();
        let (lines, answers) = writer.written();
        Script { due: None, sheet, langs, lines, answers }
    }
}

/// Five scripts in ten are calls from an opening, two have puts, two lend other lists, one is on
/// another sheet.
impl Iterator for RandomScripts {
    type Item = Script;

    fn next(&mut self) -> Option<Script> {
        Some(match self.random.below(10) {
            0 => self.on_other_sheet(),
            1..=2 => self.with_puts(),
            3..=4 => self.with_lends(),
            _ => self.after_opening(),
        })
    }
}

/// A plan of level 1 or 2; most are small, as every call checks the sheet.
fn random_plan(random: &mut Random) -> Plan {
    let level = word(random.between(1, 2));
    match random.chance(95) {
        true => accepted::small_plan(random, level),
        false => accepted::plan(random, level),
    }
}

/// Words to lend: the sheet's and others, not all of the sheet's, or some that don't rise.
fn other_list(random: &mut Random, sheet: &[u8]) -> Vec<u16> {
    let held = held(sheet);
    let list = match random.below(8) {
        0..=1 => with_others(random, held.clone()),
        2..=4 => lacking(random, held.clone()),
        5..=6 => not_rising(random, held.clone()),
        _ => Vec::new(),
    };
    let words = lists::words(&list);
    match Line::Lend(words.clone()).can_be_read() {
        true => words,
        false => held,
    }
}

/// Writes a script line by line, along with the answers.
struct Writer<'a> {
    random: &'a mut Random,
    /// The plan that numbers and values suit.
    plan: &'a Plan,
    player: Player<'a>,
    lines: Vec<Line>,
    answers: String,
}

impl<'a> Writer<'a> {
    fn new(random: &'a mut Random, plan: &'a Plan, sheet: &'a [u8], langs: &[u8]) -> Writer<'a> {
        let (player, opening) = Player::open(sheet, langs);
        Writer { random, plan, player, lines: Vec::new(), answers: opening + "\n" }
    }

    fn written(self) -> (Vec<Line>, String) {
        (self.lines, self.answers)
    }

    fn write(&mut self, line: Line) {
        self.answers += &self.player.answer(&line);
        self.answers.push('\n');
        self.lines.push(line);
    }

    fn state_and_listing(&mut self) {
        self.write(Line::State);
        self.write(Line::List);
    }

    /// A call, or now and then an opening.
    fn opening_or_call(&mut self) {
        let line = match self.random.chance(4) {
            true => Line::Open,
            false => Line::Call(random_call(self.random, self.plan)),
        };
        self.write(line);
    }

    /// Some calls and openings, then the state and a listing into few or many words.
    fn calls_and_listings(&mut self) {
        self.write(Line::List);
        for _ in 0..self.random.between(1, 4) {
            self.opening_or_call();
        }
        self.write(Line::State);
        self.listing_into();
    }

    /// A listing into a number of words that is often just enough, or one less or more.
    fn listing_into(&mut self) {
        let active = self.plan.objects.iter().zip(&self.player.state().objects);
        let entries = active.filter(|(_, state)| state.active).map(|(object, _)| {
            let children = object.children.iter().map(|&child| usize::from(child));
            let tracks = children.map(|child| self.plan.objects[child].tracks.len());
            object.tracks.len() + tracks.sum::<usize>()
        });
        let enough: usize = entries.sum();
        let any = self.random.between(0, MOST_WORDS);
        let words = [0, enough.saturating_sub(1), enough, enough, enough + 1, any];
        let words = self.random.pick(&words).min(MOST_WORDS);
        self.write(Line::ListInto(words));
    }

    /// Puts the state after some calls on the opened sheet, as it is or with some changes.
    fn put_other_state(&mut self, sheet: &[u8], langs: &[u8]) {
        let mut state = State::open(sheet, langs).0;
        for _ in 0..self.random.below(5) {
            state = random_call(self.random, self.plan).make(state, sheet, langs).0;
        }
        for _ in 0..self.random.pick(&[0, 1, 1, 2]) {
            state = changed_state(self.random, self.plan, state);
        }
        for line in Line::puts(self.player.state(), &state) {
            self.write(line);
        }
    }
}
