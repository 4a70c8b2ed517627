//! What `sheet_start_listing` has to say about a programme.

use std::{error, fmt};

/// A refusal of a listing; they are tried in this order.
#[derive(Clone, Copy, Debug, PartialEq, Eq)]
pub enum Refusal {
    /// 25: the sheet isn't accepted, or is level 0.
    SheetNotAccepted,
    /// 27: no such programme.
    NoSuchProgramme,
    /// 32: the buffer has fewer than two bytes per entry.
    BufferTooSmall,
}

impl Refusal {
    /// The refusal's number, 25, 27 or 32.
    pub fn number(self) -> u8 {
        match self {
            Refusal::SheetNotAccepted => 25,
            Refusal::NoSuchProgramme => 27,
            Refusal::BufferTooSmall => 32,
        }
    }

    fn of_number(number: u32) -> Option<Refusal> {
        let all = [Refusal::SheetNotAccepted, Refusal::NoSuchProgramme, Refusal::BufferTooSmall];
        all.into_iter().find(|refusal| u32::from(refusal.number()) == number)
    }
}

/// What is wrong, in words.
impl fmt::Display for Refusal {
    fn fmt(&self, formatter: &mut fmt::Formatter) -> fmt::Result {
        formatter.write_str(match self {
            Refusal::SheetNotAccepted => "the sheet isn't accepted, or is level 0",
            Refusal::NoSuchProgramme => "no such programme",
            Refusal::BufferTooSmall => "the buffer has fewer than two bytes per entry",
        })
    }
}

impl error::Error for Refusal {}

/// What an answer of `sheet_start_listing` stands for, if it stands for anything: a number of
/// entries that fit in a buffer of so many bytes, or a refusal's number negated.
pub(crate) fn of_answer(answer: i32, bytes: usize) -> Option<Result<usize, Refusal>> {
    match usize::try_from(answer) {
        Ok(entries) => (entries <= bytes / 2).then_some(Ok(entries)),
        Err(_) => Refusal::of_number(answer.unsigned_abs()).map(Err),
    }
}

#[cfg(test)]
mod tests {
    use super::{of_answer, Refusal};

    #[test]
    fn numbers_of_entries_that_fit_are_read() {
        for (answer, bytes, entries) in [(1, 2, 1), (1, 3, 1), (28, 56, 28), (28, 100, 28)] {
            assert_eq!(of_answer(answer, bytes), Some(Ok(entries)));
        }
        for (answer, bytes) in [(1, 0), (1, 1), (28, 55), (i32::MAX, 56)] {
            assert_eq!(of_answer(answer, bytes), None, "{answer} of {bytes} bytes");
        }
    }

    #[test]
    fn refusals_are_read() {
        assert_eq!(of_answer(-25, 0), Some(Err(Refusal::SheetNotAccepted)));
        assert_eq!(of_answer(-27, 0), Some(Err(Refusal::NoSuchProgramme)));
        assert_eq!(of_answer(-32, 0), Some(Err(Refusal::BufferTooSmall)));
        for answer in [-1, -24, -26, -28, -31, -33, i32::MIN] {
            assert_eq!(of_answer(answer, 56), None, "{answer}");
        }
    }
}
