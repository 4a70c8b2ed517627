//! The words and numbers of a line, as `listen` and `gaintenths` read them.

use std::str::FromStr;

/// The bytes of the longest line that has a meaning.
pub const LONGEST_LINE: usize = 256;

/// The words of a line, which stand between spaces and tabs; none for a line that is too long. A
/// carriage return at the end counts as a byte of the line, and is no part of a word.
pub fn words(line: &str) -> Option<Vec<&str>> {
    let said = Some(line).filter(|line| line.len() <= LONGEST_LINE)?;
    let said = said.strip_suffix('\r').unwrap_or(said);
    Some(said.split([' ', '\t']).filter(|word| !word.is_empty()).collect())
}

/// A number in base ten: digits, leading zeros among them, with a minus before them where the type
/// has negative numbers.
pub fn number<T: FromStr>(text: &str) -> Option<T> {
    text.parse().ok().filter(|_| !text.starts_with('+'))
}
