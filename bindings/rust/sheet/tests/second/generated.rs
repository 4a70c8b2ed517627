//! Generated sheets get the verdict that their construction settles.

use std::collections::HashSet;

use sheet::generate::{fixed_sheets, Generated, RandomSheets};
use sheet::second::{check, Verdict};

#[test]
fn fixed_sheets_get_their_verdicts() {
    for generated in fixed_sheets() {
        if let Some(expected) = generated.expected {
            assert_eq!(check(&generated.sheet, &generated.langs), expected, "{}", generated.name);
        }
    }
}

#[test]
fn random_accepted_sheets_are_accepted() {
    let mut sheets = RandomSheets::new(1);
    for _ in 0..6000 {
        let generated = sheets.accepted();
        assert_eq!(
            check(&generated.sheet, &generated.langs),
            Verdict::Accepted,
            "{}",
            generated.name
        );
    }
}

#[test]
fn clauses_stay_broken_beside_accepted_sheets() {
    let mut sheets = RandomSheets::new(2);
    for _ in 0..6000 {
        let generated = sheets.broken();
        assert_eq!(
            Some(check(&generated.sheet, &generated.langs)),
            generated.expected,
            "{}",
            generated.name
        );
    }
}

#[test]
fn damage_breaks_every_rule() {
    let mut sheets = RandomSheets::new(3);
    let verdicts = (0..20_000).map(|_| {
        let Generated { sheet, langs, .. } = sheets.damaged();
        check(&sheet, &langs)
    });
    let rules: HashSet<u8> = verdicts
        .map(|verdict| match verdict {
            Verdict::Accepted => 0,
            Verdict::Broken { rule, .. } => rule,
        })
        .collect();
    assert_eq!(rules, (0..=24).collect());
}
