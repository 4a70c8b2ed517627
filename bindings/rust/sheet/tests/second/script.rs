//! The protocol of scripts, with answers worked out by hand from document 01 on the sheet `mixed`,
//! which `stored_scripts::sheets` describes.

use sheet::build::Plan;
use sheet::generate::calls::Call;
use sheet::generate::scripts::RandomScripts;
use sheet::generate::stored_scripts::sheets::mixed;
use sheet::script::{answers, bench_answers, read_answers, Lends, Line, Met, Said};
use sheet::second::listener::{ObjectState, State};
use sheet::second::values::Gain;

/// "eng" and "fra", the languages of `mixed`.
const LANGS: [u8; 4] = [21, 199, 26, 65];

/// That a script on a sheet has these answers, the opening's first.
fn assert_answers(plan: Plan, script: &[&str], expected: &[&str]) {
    let answers = answers(&plan.bytes(), &LANGS, &script.join("\n"));
    assert_eq!(answers.lines().collect::<Vec<_>>(), expected);
}

#[test]
fn calls_states_and_listings() {
    let script = ["state", "list", "object 2", "gain 2 -60", "offset 0 100", "state", "list"];
    let opened = ["done", "programme 0", "object 0 active gain 10 offset 0"];
    let opened_rest = ["object 1 active gain -30 offset 0", "object 2 inactive gain 10 offset 0"];
    let calls = ["tracks 0 2 1", "done", "done", "done"];
    let after = ["programme 0", "object 0 inactive gain 10 offset 100"];
    let after_rest = ["object 1 active gain -30 offset 0", "object 2 active gain -60 offset 0"];
    let expected: Vec<&str> =
        opened.into_iter().chain(opened_rest).chain(calls).chain(after).collect();
    assert_answers(mixed(), &script, &[&expected[..], &after_rest, &["tracks 2 1 3"]].concat());
}

#[test]
fn silence_and_a_fresh_opening() {
    let script = ["programme 1", "gain 3 silence", "state", "open", "list"];
    let state = ["programme 1", "object 2 active gain 20 offset 0"];
    let rest = ["object 3 active gain silence offset 0", "done", "tracks 0 2 1"];
    assert_answers(mixed(), &script, &[&["done"; 3][..], &state, &rest].concat());
}

#[test]
fn refusals_by_number() {
    let calls = ["programme 3", "object 3", "object 1", "gain 1 0", "gain 0 -32768", "list 2"];
    let numbers = ["refused 27", "refused 28", "refused 29", "refused 30", "refused 31"];
    let listing = ["refused 32 of 2 : 65535 65535"];
    assert_answers(mixed(), &calls, &[&["done"][..], &numbers, &listing].concat());
    let mut level_0 = mixed();
    level_0.level = 0;
    let refused = ["refused 25", "refused 25", "refused 25", "refused 25 of 1 : 65535"];
    assert_answers(level_0, &["open", "list", "list 1"], &refused);
}

#[test]
fn listings_into_so_many_words() {
    let script = ["list 0", "list 3", "list 5", "list 65"];
    let exact = "tracks 3 of 3 : 0 2 1";
    let more = "tracks 3 of 5 : 0 2 1 65535 65535";
    assert_answers(mixed(), &script, &["done", "refused 32 of 0 :", exact, more, "?"]);
}

#[test]
fn lends() {
    let script =
        ["lend 5575", "list", "lend", "programme 1", "open", "lend 5575 6721", "list", "open"];
    let refused = ["lent 1", "refused 25", "lent 0", "refused 25", "refused 25"];
    assert_answers(mixed(), &script[..5], &[&["done"][..], &refused].concat());
    let script = [&script[..4], &script[5..7]].concat();
    let answers = [&["done"][..], &refused[..4], &["lent 2", "tracks 0 2 1"]].concat();
    assert_answers(mixed(), &script, &answers);
    let unread = ["lend eng", "lend 65536", "lend 1 -2", "list"];
    assert_answers(mixed(), &unread, &["done", "?", "?", "?", "tracks 0 2 1"]);
}

#[test]
fn lists_of_as_many_words_as_a_line_lends() {
    let numbers = |last: u16| Line::Lend((1..=last).collect());
    assert_eq!(Line::read("lend"), Some(Line::Lend(Vec::new())));
    assert_eq!(Line::read("lend 00 65535"), Some(Line::Lend(vec![0, 65_535])));
    assert!(numbers(64).can_be_read());
    assert!(!numbers(65).can_be_read());
    assert!(Line::Lend(vec![10_000; 42]).can_be_read(), "256 bytes");
    assert!(!Line::Lend(vec![10_000; 43]).can_be_read(), "262 bytes");
}

#[test]
fn random_scripts_lend_other_lists_and_the_first_again() {
    let mut lends = Lends::default();
    for script in RandomScripts::new(6).take(1000) {
        let said = read_answers(&script.answers).expect("answers");
        lends.add(script.lines.iter().zip(&said[1..]));
    }
    assert!(lends.refused > 50 && lends.done_again > 50, "{lends:?}");
}

#[test]
fn states_from_elsewhere() {
    let script = ["put object 0 inactive 10 0", "list", "put object 2 active 10 0", "list"];
    assert_answers(mixed(), &script, &["done", "put", "refused 26", "put", "tracks 2 1 3"]);
    let script = ["put programme 65535", "put object 83 active silence -1", "state", "programme 0"];
    let objects = ["object 0 active gain 10 offset 0", "object 1 active gain -30 offset 0"];
    let rest = ["object 2 inactive gain 10 offset 0", "object 83 active gain silence offset -1"];
    let said = [&["done", "put", "put", "programme 65535"][..], &objects, &rest, &["refused 26"]];
    assert_answers(mixed(), &script, &said.concat());
}

#[test]
fn lines_without_a_meaning() {
    let odd = ["", " ", "\t", "\r", "Open", "list\r ", "list\r\r", "list\0", "lis t"];
    let numbers = ["programme +1", "programme 65536", "object -0", "gain 0 32768", "gain 0 --1"];
    for text in odd.into_iter().chain(numbers) {
        assert_eq!(Line::read(text), None, "{text}");
    }
    assert_answers(mixed(), &["", "list"], &["done", "?", "tracks 0 2 1"]);
}

#[test]
fn blanks_zeros_and_long_lines() {
    for text in ["list", " list", "list ", "\t list\t", "list\r", " list \r"] {
        assert_eq!(Line::read(text), Some(Line::List), "{text}");
    }
    assert_eq!(Line::read("list  \t 0003"), Some(Line::ListInto(3)));
    let offset = |value| Some(Line::Call(Call::SetOffset(0, value)));
    assert_eq!(
        [Line::read("offset 00 -0"), Line::read("offset 0 -00060")],
        [offset(0), offset(-60)]
    );
    assert_eq!(Line::read(&format!("list{:252}", "")), Some(Line::List));
    assert_eq!(Line::read(&format!("list{:253}", "")), None);
}

#[test]
fn the_last_line_may_lack_its_end() {
    let sheet = mixed().bytes();
    for script in ["list\nlist", "list\nlist\n", "list\r\nlist\r\n"] {
        assert_eq!(answers(&sheet, &LANGS, script), "done\ntracks 0 2 1\ntracks 0 2 1\n");
    }
    assert_eq!(answers(&sheet, &LANGS, ""), "done\n");
    assert_eq!(answers(&sheet, &LANGS, "\n"), "done\n?\n");
}

#[test]
fn lines_for_tests_have_no_meaning_at_the_bench() {
    let script = "open\nlist 3\nput programme 1\nput object 0 inactive 10 0\nlist\n\
                  programme 1\ngain 3 silence\nopen\nstate\n";
    let expected = "done\n?\n?\n?\n?\ntracks 0 2 1\ndone\ndone\n?\nprogramme 1\n\
                    object 2 active gain 20 offset 0\nobject 3 active gain silence offset 0\n";
    assert_eq!(bench_answers(&mixed().bytes(), &LANGS, script), expected);
}

#[test]
fn numbers_at_their_limits() {
    let gain = |tenths| Some(Line::Call(Call::SetGain(65535, Gain::Tenths(tenths))));
    assert_eq!(Line::read("gain 65535 -32768"), gain(-32768));
    assert_eq!(Line::read("gain 65535 32767"), gain(32767));
    assert_eq!(Line::read("list 64"), Some(Line::ListInto(64)));
    let last = ObjectState { active: true, gain: Gain::Silent, offset: -32768 };
    assert_eq!(Line::read("put object 83 active silence -32768"), Some(Line::PutObject(83, last)));
    assert_eq!(Line::read("put object 84 active silence -32768"), None);
}

#[test]
fn random_scripts_are_read_as_they_are_written() {
    for script in RandomScripts::new(8).take(400) {
        let text = script.text();
        let lines: Option<Vec<Line>> = text.lines().map(Line::read).collect();
        assert_eq!(lines, Some(script.lines));
        assert_eq!(answers(&script.sheet, &script.langs, &text), script.answers);
    }
}

#[test]
fn answers_are_read() {
    let text = "done\nrefused 26\nput\n?\ntracks 0 5\ntracks 1 of 2 : 7 65535\nprogramme 4\n\
                object 83 inactive gain silence offset -3\nrefused 32 of 1 : 65535\n";
    let mut state = State { programme: 4, ..State::AT_REST };
    state.objects[83] = ObjectState { active: false, gain: Gain::Silent, offset: -3 };
    let said = vec![
        Said::Done,
        Said::Refused(26),
        Said::Put,
        Said::NotUnderstood,
        Said::Tracks(vec![0, 5]),
        Said::Tracks(vec![7]),
        Said::State(Box::new(state)),
        Said::Refused(32),
    ];
    assert_eq!(read_answers(text), Some(said));
    for bad in [
        "object 0 active gain 0 offset 0",
        "Done",
        "tracks x",
        "programme 0\nobject 84 active gain 0 offset 0",
    ] {
        assert_eq!(read_answers(bad), None, "{bad}");
    }
}

/// Every call with every answer that document 01 names for it.
fn all_answers() -> Vec<(Line, Said)> {
    let calls: [(&str, &[u8]); 6] = [
        ("open", &[25]),
        ("programme 0", &[25, 26, 27]),
        ("object 0", &[25, 26, 28, 29]),
        ("gain 0 0", &[25, 26, 28, 30, 31]),
        ("offset 0 0", &[25, 26, 28, 30, 31]),
        ("list 1", &[25, 26, 32]),
    ];
    let mut answers = Vec::new();
    for (text, refusals) in calls {
        let line = Line::read(text).expect("a line");
        answers.push((line.clone(), Said::Done));
        answers.extend(refusals.iter().map(|&number| (line.clone(), Said::Refused(number))));
    }
    answers
}

fn are_complete(answers: &[(Line, Said)]) -> bool {
    let mut met = Met::default();
    answers.iter().for_each(|(line, said)| met.add(line, said));
    assert_eq!(met.calls(), answers.len());
    met.is_complete()
}

#[test]
fn every_answer_and_no_other_is_complete() {
    let all = all_answers();
    assert!(are_complete(&all));
    for left_out in 0..all.len() {
        assert!(!are_complete(&[&all[..left_out], &all[left_out + 1..]].concat()), "{left_out}");
    }
    let other = (Line::Open, Said::Refused(26));
    assert!(!are_complete(&[&all[..], &[other]].concat()));
}
