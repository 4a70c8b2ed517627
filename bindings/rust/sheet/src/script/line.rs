//! The lines of a script.

use std::fmt;

use super::{MOST_WORDS, SILENCE};
use crate::generate::calls::Call;
use crate::lines::{number, words};
use crate::second::listener::{ObjectState, State, OBJECTS};
use crate::second::values::Gain;

/// A line of a script that has a meaning.
#[derive(Clone, Debug, PartialEq, Eq)]
pub enum Line {
    /// A call on the state.
    Call(Call),
    /// A fresh opening.
    Open,
    /// Lists into as many words as any listing needs.
    List,
    /// Lists into so many words.
    ListInto(usize),
    /// Lends these language words from here on.
    Lend(Vec<u16>),
    /// Shows the state.
    State,
    /// Changes the state's programme without a call.
    PutProgramme(u16),
    /// Changes an object of the state without a call.
    PutObject(usize, ObjectState),
}

impl Line {
    /// The line that a text stands for, if it stands for one.
    pub fn read(text: &str) -> Option<Line> {
        Some(match words(text)?[..] {
            ["programme", programme] => Line::Call(Call::ChooseProgramme(number(programme)?)),
            ["object", object] => Line::Call(Call::ChooseObject(number(object)?)),
            ["gain", object, gain] => Line::Call(Call::SetGain(number(object)?, read_gain(gain)?)),
            ["offset", object, offset] => {
                Line::Call(Call::SetOffset(number(object)?, number(offset)?))
            }
            ["open"] => Line::Open,
            ["list"] => Line::List,
            ["list", words] => Line::ListInto(number(words).filter(|&n| n <= MOST_WORDS)?),
            ["lend", ref words @ ..] => Line::Lend(language_words(words)?),
            ["state"] => Line::State,
            ["put", "programme", programme] => Line::PutProgramme(number(programme)?),
            ["put", "object", object, activity, gain, offset] => Line::PutObject(
                number(object).filter(|&object| object < OBJECTS)?,
                read_object(activity, gain, offset)?,
            ),
            _ => return None,
        })
    }

    /// Whether the line, as a script has it, is read as itself.
    pub fn can_be_read(&self) -> bool {
        Line::read(&self.to_string()).as_ref() == Some(self)
    }

    /// Whether the bench `listen` knows the line; the others are for tests.
    pub fn is_of_bench(&self) -> bool {
        matches!(self, Line::Call(_) | Line::List | Line::State)
    }

    /// The lines that put one state in another's place.
    pub fn puts(from: &State, to: &State) -> Vec<Line> {
        let programme = (from.programme != to.programme)
            .then(|| u16::try_from(to.programme).ok().map(Line::PutProgramme));
        let objects = from.objects.iter().zip(&to.objects).enumerate();
        let objects = objects
            .filter(|(_, (from, to))| from != to)
            .map(|(object, (_, &to))| Line::PutObject(object, to));
        programme.flatten().into_iter().chain(objects).collect()
    }
}

/// The line as a script has it.
impl fmt::Display for Line {
    fn fmt(&self, formatter: &mut fmt::Formatter) -> fmt::Result {
        match self {
            Line::Call(Call::ChooseProgramme(programme)) => {
                write!(formatter, "programme {programme}")
            }
            Line::Call(Call::ChooseObject(object)) => write!(formatter, "object {object}"),
            Line::Call(Call::SetGain(object, gain)) => {
                write!(formatter, "gain {object} {}", shown_gain(*gain))
            }
            Line::Call(Call::SetOffset(object, offset)) => {
                write!(formatter, "offset {object} {offset}")
            }
            Line::Open => write!(formatter, "open"),
            Line::List => write!(formatter, "list"),
            Line::ListInto(words) => write!(formatter, "list {words}"),
            Line::Lend(words) => {
                write!(formatter, "lend")?;
                words.iter().try_for_each(|word| write!(formatter, " {word}"))
            }
            Line::State => write!(formatter, "state"),
            Line::PutProgramme(programme) => write!(formatter, "put programme {programme}"),
            Line::PutObject(object, ObjectState { active, gain, offset }) => {
                let (activity, gain) = (shown_activity(*active), shown_gain(*gain));
                write!(formatter, "put object {object} {activity} {gain} {offset}")
            }
        }
    }
}

/// The words of a list, if there aren't too many.
fn language_words(words: &[&str]) -> Option<Vec<u16>> {
    let few = Some(words).filter(|words| words.len() <= MOST_WORDS)?;
    few.iter().map(|word| number(word)).collect()
}

/// A gain, or silence.
pub(super) fn read_gain(text: &str) -> Option<Gain> {
    match text {
        SILENCE => Some(Gain::Silent),
        _ => number(text).map(Gain::Tenths),
    }
}

/// The state of an object, from its three words.
pub(super) fn read_object(activity: &str, gain: &str, offset: &str) -> Option<ObjectState> {
    let active = match activity {
        "active" => true,
        "inactive" => false,
        _ => return None,
    };
    Some(ObjectState { active, gain: read_gain(gain)?, offset: number(offset)? })
}

/// A gain as scripts and answers have it.
pub(crate) fn shown_gain(gain: Gain) -> String {
    match gain {
        Gain::Silent => SILENCE.to_string(),
        Gain::Tenths(tenths) => tenths.to_string(),
    }
}

/// An activity as scripts and answers have it.
pub(super) fn shown_activity(active: bool) -> &'static str {
    match active {
        true => "active",
        false => "inactive",
    }
}
