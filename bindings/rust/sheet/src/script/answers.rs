//! Reads the answers to a script, whoever gave them.

use super::line::read_object;
use crate::lines::number;
use crate::second::listener::State;

/// What a listener said to a line of a script.
#[derive(Clone, Debug, PartialEq, Eq)]
pub enum Said {
    /// The call is done.
    Done,
    /// The call is refused by the number.
    Refused(u8),
    /// The entries of a listing.
    Tracks(Vec<u16>),
    /// So many language words are lent from here on.
    Lent(usize),
    /// The whole state.
    State(Box<State>),
    /// The state is changed without a call.
    Put,
    /// The line has no meaning.
    NotUnderstood,
}

/// The answers in a text, if all of it can be read.
pub fn read_answers(text: &str) -> Option<Vec<Said>> {
    let mut answers: Vec<Said> = Vec::new();
    for line in text.lines() {
        match (read_answer(line), answers.last_mut()) {
            (Some(answer), _) => answers.push(answer),
            (None, Some(Said::State(state))) => add_object(state, line)?,
            (None, _) => return None,
        }
    }
    Some(answers)
}

/// The answer that a line starts.
fn read_answer(line: &str) -> Option<Said> {
    let words: Vec<&str> = line.split(' ').collect();
    Some(match words[..] {
        ["done"] => Said::Done,
        ["put"] => Said::Put,
        ["lent", words] => Said::Lent(number(words)?),
        ["?"] => Said::NotUnderstood,
        ["refused", refusal, ..] => Said::Refused(number(refusal)?),
        ["tracks", entries, "of", _, ":", ref words @ ..] => {
            Said::Tracks(read_words(words.get(..number(entries)?)?)?)
        }
        ["tracks", ref words @ ..] => Said::Tracks(read_words(words)?),
        ["programme", programme] => {
            let programme = number(programme)?;
            Said::State(Box::new(State { programme, ..State::AT_REST }))
        }
        _ => return None,
    })
}

fn read_words(words: &[&str]) -> Option<Vec<u16>> {
    words.iter().map(|word| number(word)).collect()
}

/// Takes an object over from a line of a state.
fn add_object(state: &mut State, line: &str) -> Option<()> {
    let words: Vec<&str> = line.split(' ').collect();
    let ["object", object, activity, "gain", gain, "offset", offset] = words[..] else {
        return None;
    };
    *state.objects.get_mut(number::<usize>(object)?)? = read_object(activity, gain, offset)?;
    Some(())
}
