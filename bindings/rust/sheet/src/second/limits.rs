//! "One row per level, two rows of fixed length in one table; level 0 has no maximum."

/// What a limit is set on, in the order of the table.
#[derive(Clone, Copy)]
pub enum Limit {
    Programmes,
    Contents,
    Objects,
    PacksOfKind3,
    Tracks,
    ProgrammeContents,
    ProgrammeSets,
    Labels,
    Children,
    Complements,
    SetSpan,
    Channels,
    Groups,
    GroupsAndSingleObjects,
    CountedTracks,
}

const MAXIMUMS: [[usize; 15]; 2] = [
    [8, 16, 48, 32, 32, 16, 16, 4, 16, 15, 8, 12, 8, 16, 16],
    [16, 28, 84, 56, 56, 28, 28, 8, 28, 27, 16, 24, 14, 16, 28],
];

/// Whether the number is above the maximum that the level sets.
pub fn exceeds(number: usize, limit: Limit, level: u16) -> bool {
    match level {
        0 => false,
        1 => number > MAXIMUMS[0][limit as usize],
        _ => number > MAXIMUMS[1][limit as usize],
    }
}

#[cfg(test)]
mod tests {
    use super::{exceeds, Limit};

    /// Each limit with its maximums at levels 1 and 2, typed in from document 01.
    const LIMITS: [(Limit, usize, usize); 15] = [
        (Limit::Programmes, 8, 16),
        (Limit::Contents, 16, 28),
        (Limit::Objects, 48, 84),
        (Limit::PacksOfKind3, 32, 56),
        (Limit::Tracks, 32, 56),
        (Limit::ProgrammeContents, 16, 28),
        (Limit::ProgrammeSets, 16, 28),
        (Limit::Labels, 4, 8),
        (Limit::Children, 16, 28),
        (Limit::Complements, 15, 27),
        (Limit::SetSpan, 8, 16),
        (Limit::Channels, 12, 24),
        (Limit::Groups, 8, 14),
        (Limit::GroupsAndSingleObjects, 16, 16),
        (Limit::CountedTracks, 16, 28),
    ];

    #[test]
    fn a_maximum_is_exceeded_by_one_more() {
        for (limit, at_level_1, at_level_2) in LIMITS {
            for (level, maximum) in [(1, at_level_1), (2, at_level_2)] {
                assert!(!exceeds(maximum, limit, level), "{maximum} at level {level}");
                assert!(exceeds(maximum + 1, limit, level), "{maximum} + 1 at level {level}");
            }
            assert!(!exceeds(65_535, limit, 0));
        }
    }
}
