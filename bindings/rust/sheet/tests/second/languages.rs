//! Lists of language words, and what they make of sheets. The verdicts are worked out by hand from
//! document 02, L2.

use sheet::build::{bytes, language, Plan};
use sheet::generate::languages::met::Met;
use sheet::generate::languages::{each, lists, LanguageSheets};
use sheet::generate::{fixed_sheets, honest, Generated};
use sheet::second::figures::lines;
use sheet::second::{check, code, Verdict};

/// A in two languages, with a label of a third.
fn sheet(programme: &str, content: &str, label: &str) -> Vec<u8> {
    let mut plan = Plan::sheet_a();
    plan.programmes[0].language = language(programme);
    plan.contents[0].language = language(content);
    plan.contents[0].labels = vec![language(label)];
    plan.bytes()
}

fn verdict(sheet: &[u8], codes: &[&str]) -> String {
    check(sheet, &lists::of_codes(codes)).to_string()
}

#[test]
fn the_narrator_in_xqx_is_found() {
    let sheet = sheet("eng", "xqx", "eng");
    assert_eq!(verdict(&sheet, &["eng"]), "rule 6 section 2 record 0");
    assert_eq!(verdict(&sheet, &["eng", "xqx"]), "accepted");
    assert_eq!(check(&sheet, lists::REAL).to_string(), "rule 6 section 2 record 0");
}

#[test]
fn each_language_word_has_to_be_listed() {
    let sheet = sheet("eng", "fra", "deu");
    assert_eq!(verdict(&sheet, &["deu", "eng", "fra"]), "accepted");
    assert_eq!(verdict(&sheet, &["deu", "fra"]), "rule 6 section 1 record 0");
    assert_eq!(verdict(&sheet, &["deu", "eng"]), "rule 6 section 2 record 0");
    assert_eq!(verdict(&sheet, &["eng", "fra"]), "rule 6 section 2 record 0");
    assert_eq!(verdict(&sheet, &[]), "rule 6 section 1 record 0");
}

#[test]
fn codes_from_qaa_to_qtz_need_no_list() {
    for (codes, expected) in [
        (["qaa", "qtz", "qmz"], "accepted"),
        (["qua", "qaa", "qaa"], "rule 6 section 1 record 0"),
        (["qaa", "pzz", "qaa"], "rule 6 section 2 record 0"),
        (["qaa", "qaa", "raa"], "rule 6 section 2 record 0"),
    ] {
        let [programme, content, label] = codes;
        assert_eq!(verdict(&sheet(programme, content, label), &[]), expected, "{codes:?}");
    }
}

#[test]
fn a_listed_word_of_no_letters_stays_bad() {
    let mut plan = Plan::sheet_a();
    for word in [0, 1, 5127, 27_483, 38_343, 65_535] {
        plan.contents[0].language = word;
        let verdict = check(&plan.bytes(), &lists::all_words());
        assert_eq!(verdict.to_string(), "rule 6 section 2 record 0", "{word}");
    }
}

#[test]
fn rule_33_comes_before_all_others_with_the_header_as_its_place() {
    let falling = bytes(&[language("fra"), language("eng")]);
    let sheets = [Vec::new(), vec![0; 103], Plan::sheet_a().bytes(), sheet("xqx", "eng", "eng")];
    for sheet in sheets {
        assert_eq!(check(&sheet, &falling).to_string(), "rule 33 section 0 record 0");
        assert_eq!(code(check(&sheet, &falling)), 33_000_000);
        assert_eq!(lines(&sheet, &falling), "rule 33 section 0 record 0\n");
    }
}

/// Listed are 506 words, and from qaa to qtz are 20 times 26.
#[test]
fn each_word_is_good_if_listed_or_from_qaa_to_qtz() {
    let each = each::each_word().map(|Generated { sheet, langs, .. }| check(&sheet, &langs));
    let accepted: Vec<bool> = each.map(|verdict| verdict == Verdict::Accepted).collect();
    let numbers = accepted.chunks(65_536).map(|words| words.iter().filter(|&&good| good).count());
    assert_eq!(numbers.collect::<Vec<_>>(), [506 + 520, 506 + 520, 520, 520, 506 + 520]);
}

#[test]
fn lists_as_long_as_they_get() {
    let a = Plan::sheet_a().bytes();
    let all = lists::all_words();
    assert_eq!(all.len(), 131_072);
    assert_eq!(check(&a, &all), Verdict::Accepted);
    for byte in [0, 255] {
        let odd = lists::with_odd_byte(all.clone(), byte);
        assert_eq!(check(&a, &odd), Verdict::Accepted);
        let more = lists::with_odd_byte(odd, 255);
        assert_eq!(code(check(&a, &more)), 33_000_000);
    }
}

#[test]
fn the_list_of_iso_639_2() {
    let words = lists::words(lists::REAL);
    assert!(
        lists::REAL.len() == 2 * words.len() && (480..520).contains(&words.len()),
        "{}",
        words.len()
    );
    assert!(words.is_sorted_by(|one, other| one < other));
    let listed = ["deu", "dut", "eng", "fra", "fre", "ger", "mis", "mul", "nld", "und", "zxx"];
    assert!(listed.iter().all(|code| words.contains(&language(code))));
    let unlisted = ["xqx", "qaa", "qtz", "aaa", "zzz"];
    assert!(!unlisted.iter().any(|code| words.contains(&language(code))));
}

#[test]
fn honest_sheets_have_languages_of_the_list_or_need_none() {
    let large = [honest::full(), honest::largest()];
    let of_words = [honest::of_words(2000), honest::of_labels(2000)];
    let sheets = [Plan::sheet_a()].into_iter().chain(large).chain(of_words);
    for plan in sheets {
        assert_eq!(check(&plan.bytes(), lists::REAL), Verdict::Accepted);
        let local = honest::in_local_languages(plan.clone());
        assert_eq!(check(&local.bytes(), &[]), Verdict::Accepted);
        assert_eq!(local.words().len(), plan.words().len());
    }
}

/// The sheets of clauses and accepted ones, then random ones.
fn sheets() -> impl Iterator<Item = Generated> {
    let fixed = fixed_sheets().into_iter();
    let small = fixed.filter(|generated| generated.sheet.len() < 4000);
    small.chain(LanguageSheets::new(5).take(20_000))
}

#[test]
fn every_class_of_lists_and_words_is_met() {
    let mut met = Met::default();
    for Generated { sheet, langs, .. } in sheets() {
        met.add(&sheet, &langs, check(&sheet, &langs));
    }
    print!("{met}");
    assert_eq!(met.never_met(), [""; 0]);
}
