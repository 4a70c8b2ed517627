//! Lists of language words, and sheets on which the list that is lent beside them tells.

/// Sheets for each word, and for each length of a list and each place in it.
pub mod each;
/// Random lists for sheets.
pub mod lend;
/// Lists of language words.
pub mod lists;
/// Which classes of lists and words sheets met.
pub mod met;
mod sheets;
/// Where language words stand in a sheet.
pub mod standings;

pub use sheets::LanguageSheets;
