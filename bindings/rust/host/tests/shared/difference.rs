//! Where the lines of two listeners or checkers part.

/// The first line, counted from 1, in which the texts differ, its end included; an empty text
/// stands for a line that is missing.
pub fn first_difference(second: &str, proved: &str) -> Option<String> {
    let [mut second, mut proved] = [second, proved].map(|text| text.split_inclusive('\n'));
    (1..).find_map(|number| match (second.next(), proved.next()) {
        (None, None) => Some(None),
        (second, proved) if second == proved => None,
        (second, proved) => {
            let [second, proved] = [second, proved].map(Option::unwrap_or_default);
            Some(Some(format!("line {number}: proved {proved:?}, second {second:?}")))
        }
    })?
}
