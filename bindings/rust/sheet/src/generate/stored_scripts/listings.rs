//! Listings: children, several channels, tracks written twice, and buffers of every length.

use super::{for_each, script, shown, StoredScript};

pub fn scripts() -> Vec<StoredScript> {
    let every_length = || for_each(0..=30, "list N");
    vec![
        script("a", "every-length", &every_length()),
        script("play", "every-length", &every_length()),
        script("mixed", "every-length", &every_length()),
        script("wide-pack", "every-length", &every_length()),
        script(
            "wide-pack",
            "most-words",
            &["list 64", "object 1", "list 27", "list 28", "list 63"],
        ),
        shown("children", "children-in-list-order", &["programme 0", "programme 1"]),
        script("children", "every-length", &for_each(0..=9, "list N")),
        shown("parent-in-group", "parent-or-object", &["object 3", "list 0", "list 1", "object 0"]),
        script("parent-in-group", "short-by-a-child", &["list 1", "list 2", "object 3", "list 1"]),
        script("full", "every-length", &every_length()),
        script("level-0", "refused-listings-change-no-word", &["list 0", "list 1", "list 3"]),
    ]
}
