//! What calls met once another list was lent.

use super::{Line, Said};

/// How many calls were refused by 25 after another list was lent, where a call had been done
/// before, and how many were done once a good list was lent again.
#[derive(Clone, Copy, Debug, Default)]
pub struct Lends {
    /// Calls refused by 25 after a list was lent.
    pub refused: usize,
    /// Calls done after such a refusal, once a list was lent again.
    pub done_again: usize,
}

/// What came before, in a script.
#[derive(Clone, Copy, PartialEq, Eq)]
enum Before {
    /// No call was done.
    Nothing,
    /// A call was done.
    Done,
    /// Then a list was lent.
    Lent,
    /// Then a call was refused by 25.
    Refused,
    /// Then a list was lent again.
    LentAgain,
}

impl Lends {
    /// Adds what was said to the lines of a script.
    pub fn add<'a>(&mut self, lines: impl Iterator<Item = (&'a Line, &'a Said)>) {
        let mut before = Before::Nothing;
        for (line, said) in lines {
            before = match (before, line, said) {
                (Before::Done, Line::Lend(_), _) => Before::Lent,
                (Before::Refused, Line::Lend(_), _) => Before::LentAgain,
                (Before::Lent, _, Said::Refused(25)) => {
                    self.refused += 1;
                    Before::Refused
                }
                (Before::LentAgain, _, Said::Refused(25)) => Before::Refused,
                (Before::LentAgain, _, Said::Done | Said::Tracks(_)) => {
                    self.done_again += 1;
                    Before::Done
                }
                (Before::Nothing | Before::Lent, _, Said::Done | Said::Tracks(_)) => Before::Done,
                _ => before,
            };
        }
    }
}
