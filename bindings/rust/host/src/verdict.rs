//! What `sheet_check` has to say about a sheet. The second checker has such a type too; a player
//! needs nothing of it, so it isn't used here.

/// Acceptance, or the first broken rule with its place.
#[derive(Clone, Copy, Debug, PartialEq, Eq)]
pub enum Verdict {
    /// No rule is broken.
    Accepted,
    /// The first broken rule, and the least place that breaks it.
    Broken {
        /// The rule, 1 to 24 or 33.
        rule: u8,
        /// The section of the place, 1 to 7, or 0 for the header.
        section: u8,
        /// The record of the place, counted from 0.
        record: u16,
    },
}

impl Verdict {
    /// The verdict that a code stands for, if it stands for one.
    pub(crate) fn of_code(code: u32) -> Option<Verdict> {
        if code == 0 {
            return Some(Verdict::Accepted);
        }
        let rule = u8::try_from(code / 1_000_000).ok().filter(is_rule)?;
        let section = u8::try_from(code / 100_000 % 10).ok().filter(|section| *section <= 7)?;
        let record = u16::try_from(code % 100_000).ok()?;
        Some(Verdict::Broken { rule, section, record })
    }
}

fn is_rule(number: &u8) -> bool {
    matches!(number, 1..=24 | 33)
}

#[cfg(test)]
mod tests {
    use super::Verdict;

    fn broken(rule: u8, section: u8, record: u16) -> Option<Verdict> {
        Some(Verdict::Broken { rule, section, record })
    }

    #[test]
    fn codes_of_verdicts_are_read() {
        assert_eq!(Verdict::of_code(0), Some(Verdict::Accepted));
        assert_eq!(Verdict::of_code(1_000_000), broken(1, 0, 0));
        assert_eq!(Verdict::of_code(14_300_000), broken(14, 3, 0));
        assert_eq!(Verdict::of_code(6_765_535), broken(6, 7, 65_535));
        assert_eq!(Verdict::of_code(24_000_000), broken(24, 0, 0));
        assert_eq!(Verdict::of_code(33_000_000), broken(33, 0, 0));
    }

    #[test]
    fn other_codes_are_refused() {
        let rule_0 = [1, 100_000, 999_999];
        let rule_25 = [25_000_000, 32_000_000, 34_000_000, u32::MAX];
        let section_8 = [14_800_000, 14_900_000];
        let no_word = [14_365_536, 14_399_999];
        for code in [&rule_0[..], &rule_25, &section_8, &no_word].concat() {
            assert_eq!(Verdict::of_code(code), None, "{code}");
        }
    }
}
