//! Questions about many lists at once, answered from tables over section 6.

use super::sections::{index, word, Reference};
use crate::second::view::List;

/// The first of the lists, one for each record, that holds a bad entry. They are walked,
/// unless they have more entries together, `total`, than section 6.
pub fn first_with(
    references: &[Reference],
    total: usize,
    mut lists: impl Iterator<Item = List>,
    bad: impl Fn(u16) -> bool,
) -> Option<usize> {
    if total == 0 {
        return None;
    }
    if total <= references.len() {
        return lists.position(|list| {
            let entries = &references[list.first..list.first + list.count];
            entries.iter().any(|entry| bad(word(entry, 0)))
        });
    }
    let next = next_bad(references, bad);
    lists.position(|list| reaches(&next, list))
}

/// Whether the list holds what a table says comes next from its first entry on.
#[inline(always)]
pub fn reaches(next: &[u16], list: List) -> bool {
    usize::from(next[list.first]) < list.first + list.count
}

/// For each index of section 6, the least one from there on with a bad entry.
fn next_bad(references: &[Reference], bad: impl Fn(u16) -> bool) -> Vec<u16> {
    let mut least = references.len() as u16;
    let mut next = vec![least; references.len() + 1];
    for (place, entry) in references.iter().enumerate().rev() {
        if bad(word(entry, 0)) {
            least = place as u16;
        }
        next[place] = least;
    }
    next
}

/// For each index of section 6, the least one whose entry has the key of an earlier entry
/// from there on. Entries without a key below `keys` are passed over.
pub fn next_repeats(
    references: &[Reference],
    keys: usize,
    key: impl Fn(usize) -> Option<usize>,
) -> Vec<u16> {
    let mut least = references.len() as u16;
    let mut later = vec![least; keys];
    let mut next = vec![least; references.len() + 1];
    for (place, entry) in references.iter().enumerate().rev() {
        if let Some(later) = key(index(entry, 0)).and_then(|key| later.get_mut(key)) {
            least = least.min(*later);
            *later = place as u16;
        }
        next[place] = least;
    }
    next
}

/// Fills a table of zeros, one longer than a section, with the number of lists or spans
/// that hold each index of the section.
pub fn cover(table: &mut [u32], lists: impl Iterator<Item = List>) {
    for List { first, count } in lists {
        table[first] = table[first].wrapping_add(1);
        table[first + count] = table[first + count].wrapping_sub(1);
    }
    let mut holding: u32 = 0;
    for number in table {
        holding = holding.wrapping_add(*number);
        *number = holding;
    }
}

/// Hands out each entry of section 6 that lists hold, and the number of those lists.
pub fn each_covered(
    references: &[Reference],
    lists: impl Iterator<Item = List>,
    mut take: impl FnMut(usize, u32),
) {
    let mut table = vec![0; references.len() + 1];
    cover(&mut table, lists);
    for (entry, holding) in references.iter().zip(table) {
        if holding > 0 {
            take(index(entry, 0), holding);
        }
    }
}
