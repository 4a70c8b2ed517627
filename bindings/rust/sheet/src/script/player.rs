//! Plays scripts on the second listener.

use super::line::{shown_activity, shown_gain};
use super::{Line, UNTOUCHED};
use crate::build::bytes;
use crate::second::listener::{Answer, ObjectState, Refusal, State};

/// As many words as any listing needs.
const ENOUGH_WORDS: usize = 28;

/// A listener in the middle of a script, and what its next call is lent.
pub struct Player<'a> {
    sheet: &'a [u8],
    langs: Vec<u8>,
    state: State,
}

impl<'a> Player<'a> {
    /// Opens the sheet with this list; gives the player and the opening's answer.
    pub fn open(sheet: &'a [u8], langs: &[u8]) -> (Player<'a>, String) {
        let (state, answer) = State::open(sheet, langs);
        (Player { sheet, langs: langs.to_vec(), state }, shown_answer(answer))
    }

    /// The state now.
    pub fn state(&self) -> &State {
        &self.state
    }

    /// The answer to a line: one line of text, or several for a state.
    pub fn answer(&mut self, line: &Line) -> String {
        match line {
            Line::Call(call) => {
                let (state, answer) = call.make(self.state.clone(), self.sheet, &self.langs);
                self.state = state;
                shown_answer(answer)
            }
            Line::Open => {
                let (state, answer) = State::open(self.sheet, &self.langs);
                self.state = state;
                shown_answer(answer)
            }
            Line::List => self.listing(),
            Line::ListInto(words) => self.listing_into(*words),
            Line::Lend(words) => {
                self.langs = bytes(words);
                format!("lent {}", words.len())
            }
            Line::State => shown_state(&self.state),
            Line::PutProgramme(programme) => {
                self.state.programme = (*programme).into();
                "put".to_string()
            }
            Line::PutObject(object, new) => {
                self.state.objects[*object] = *new;
                "put".to_string()
            }
        }
    }

    fn listing(&self) -> String {
        let mut buffer = [UNTOUCHED; ENOUGH_WORDS];
        match self.state.list(self.sheet, &self.langs, &mut buffer) {
            Ok(entries) => format!("tracks{}", shown_words(&buffer[..entries])),
            Err(refusal) => shown_refusal(refusal),
        }
    }

    fn listing_into(&self, words: usize) -> String {
        let mut buffer = vec![UNTOUCHED; words];
        let answer = match self.state.list(self.sheet, &self.langs, &mut buffer) {
            Ok(entries) => format!("tracks {entries}"),
            Err(refusal) => shown_refusal(refusal),
        };
        format!("{answer} of {words} :{}", shown_words(&buffer))
    }
}

/// The lines of a script. What follows the last line end is a line too, unless it is empty.
pub fn lines(script: &str) -> impl Iterator<Item = &str> {
    script.split_terminator('\n')
}

/// All answers to a script, each with its line end: the opening's, then one for each line.
pub fn answers(sheet: &[u8], langs: &[u8], script: &str) -> String {
    answers_to(sheet, langs, script, Line::read)
}

/// All answers of the bench `listen`, to which the lines for tests have no meaning.
pub fn bench_answers(sheet: &[u8], langs: &[u8], script: &str) -> String {
    answers_to(sheet, langs, script, |text| Line::read(text).filter(Line::is_of_bench))
}

/// All answers to a script whose lines are read so.
fn answers_to(
    sheet: &[u8],
    langs: &[u8],
    script: &str,
    read: impl Fn(&str) -> Option<Line>,
) -> String {
    let (mut player, opening) = Player::open(sheet, langs);
    let mut answers = opening + "\n";
    for text in lines(script) {
        let answer = read(text).map(|line| player.answer(&line));
        answers += &answer.unwrap_or_else(|| "?".to_string());
        answers.push('\n');
    }
    answers
}

fn shown_answer(answer: Answer) -> String {
    answer.map_or_else(shown_refusal, |()| "done".to_string())
}

fn shown_refusal(refusal: Refusal) -> String {
    format!("refused {}", refusal.number())
}

/// Each word after a space.
fn shown_words(words: &[u16]) -> String {
    words.iter().map(|word| format!(" {word}")).collect()
}

fn shown_state(state: &State) -> String {
    let mut lines = vec![format!("programme {}", state.programme)];
    let objects = state.objects.iter().enumerate();
    for (index, object) in objects.filter(|(_, object)| **object != ObjectState::AT_REST) {
        let ObjectState { active, gain, offset } = *object;
        let (activity, gain) = (shown_activity(active), shown_gain(gain));
        lines.push(format!("object {index} {activity} gain {gain} offset {offset}"));
    }
    lines.join("\n")
}
