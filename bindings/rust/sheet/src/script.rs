//! Scripts of listener calls as text: the protocol of the test program `listentest`, spoken by
//! the second listener.
//!
//! A script is played on one sheet, and one list of language words lent beside it until another
//! is. The first answer is that of the opening; then each line of the script has its answer:
//!
//! ```text
//! programme N, object N, gain N V, offset N V     done, or refused and a number
//! open                                            done or refused 25; the state is what opening handed back
//! list                                            tracks and their numbers, or refused and a number
//! list N                                          the same into N words, at most 64, and the words after it
//! lend N N N ..                                   lent and the number of language words, at most 64; later calls are lent them
//! state                                           the programme, then the objects that aren't at rest
//! put programme N                                 put: another programme in the state, without a call
//! put object I active|inactive V W                put: the state's object I, below 84, with gain V and offset W
//! anything else                                   ?
//! ```
//!
//! N is 0 to 65535, V and W are -32768 to 32767, and a gain may be `silence`; language words are N,
//! and `lend` without any is the empty list. Words stand between spaces and tabs. A carriage return
//! at the end of a line is no part of it, and a line of over 256 bytes has no meaning.
//!
//! The bench `listen` speaks a part of it: `open`, `list N`, `lend` and `put` have no meaning there.

mod answers;
mod lends;
mod line;
mod met;
mod player;

pub use answers::{read_answers, Said};
pub use lends::Lends;
pub(crate) use line::shown_gain;
pub use line::Line;
pub use met::Met;
pub use player::{answers, bench_answers, lines, Player};

/// The gain of silence, in scripts and answers.
const SILENCE: &str = "silence";
/// The most words that a line may list into, or lend.
pub const MOST_WORDS: usize = 64;
/// The words of a buffer before it is listed into.
const UNTOUCHED: u16 = 65535;
