//! The emission sheet: a second checker and listener, and sheets to try checkers on.
//!
//! Written from document 01 (`01-scope.md`) and its readings (`READINGS.md`) alone, the figures,
//! the language words, the gains of plain factors and the block times of a live frame from L1, L2,
//! L3 and L5 of document 02 (`02-change-requests.md`) and their readings (`REQUESTS.md`) besides.

/// The second checker and the second listener.
pub mod second;

/// The second checker, the gain of a plain factor and the block times of a live frame, written for
/// speed.
pub mod fast;

/// A builder of sheets from records given as vectors.
pub mod build;

/// Sheets from a fixed seed: accepted, broken in a named clause, damaged, hostile.
pub mod generate;

/// Demand 3, for any listener's states and listings.
pub mod demand_3;

/// Scripts of listener calls.
pub mod script;

/// The words and numbers of a line.
pub mod lines;

/// Lines of factors, and their gains.
pub mod factor_lines;
