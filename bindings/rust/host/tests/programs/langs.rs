//! The file `langs` of the folder that a program runs in: missing, of any length, unreadable.

use std::fs::{self, File, Permissions};
use std::os::unix::fs::{symlink, PermissionsExt};
use std::path::Path;
use std::process::Command;

use sheet::build::{bytes, Plan};
use sheet::generate::languages::lists::{self, of_codes, with_odd_byte, REAL};
use sheet::generate::languages::standings::local_a;
use sheet::script::bench_answers;
use sheet::second::check;
use sheet::second::figures::lines;

use crate::folder::{Folder, LANGS};
use crate::input;
use crate::run::{program_in, run, Run};

/// The programs that are lent a sheet.
const PROGRAMS: [&str; 3] = ["sheetcheck", "sheetfigures", "listen"];
/// What `listen` is asked.
const SCRIPT: &str = "state\nprogramme 0\nlist\nlend 5575\n";
/// The file of the sheet that `listen` is given.
const SHEET: &str = "a.sheet";

/// A sheet in English, one in codes from qaa to qtz, one that breaks rule 18, and no bytes.
fn sheets() -> [Vec<u8>; 4] {
    let mut clashing = Plan::sheet_a();
    clashing.objects[0].interact = 1;
    clashing.objects[0].values.gain_range = (-60, 60);
    clashing.objects[0].values.gain = 61;
    [Plan::sheet_a().bytes(), local_a().bytes(), clashing.bytes(), Vec::new()]
}

/// The run of a program in a folder on a sheet.
fn run_on(folder: &Folder, name: &str, sheet: &[u8]) -> Run {
    fs::write(folder.path().join(SHEET), sheet).expect("the sheet can be written");
    match name {
        "listen" => run(program_in(folder.path(), name, &[SHEET]), input::pipe(SCRIPT.as_bytes())),
        _ => run(program_in(folder.path(), name, &[]), input::pipe(sheet)),
    }
}

/// What the second implementation says there.
fn expected(name: &str, sheet: &[u8], langs: &[u8]) -> String {
    match name {
        "sheetcheck" => format!("{}\n", check(sheet, langs)),
        "sheetfigures" => lines(sheet, langs),
        _ => bench_answers(sheet, langs, SCRIPT),
    }
}

/// Every program on every sheet must say what the list makes of it.
fn compare(folder: &Folder, langs: &[u8], what: &str) {
    for name in PROGRAMS {
        for sheet in sheets() {
            let what = format!("{name} on {} bytes, {LANGS} {what}", sheet.len());
            run_on(folder, name, &sheet).must_say(&expected(name, &sheet, langs), &what);
        }
    }
}

/// Every program must complain of the list, and say nothing else.
fn must_complain(folder: &Folder, what: &str) {
    for name in PROGRAMS {
        for sheet in sheets() {
            let what = format!("{name} on {} bytes, {LANGS} {what}", sheet.len());
            run_on(folder, name, &sheet).must_complain(&format!("{LANGS}: "), &what);
        }
    }
}

#[test]
fn a_missing_list_is_empty() {
    let folder = Folder::new("langs missing");
    compare(&folder, &[], "missing");
    folder.lend(&[]);
    compare(&folder, &[], "empty");
    println!("a missing list: no difference");
}

#[test]
fn lists_of_any_length() {
    let folder = Folder::new("langs of any length");
    let all = lists::all_words();
    let eng = of_codes(&["eng"]);
    let falling = bytes(&[6721, 5575]);
    let lists = [
        ("of a byte", vec![21]),
        ("of a word", eng.clone()),
        ("of a word and a byte", with_odd_byte(eng.clone(), 0)),
        ("of ISO 639-2", REAL.to_vec()),
        ("of ISO 639-2 and a byte", with_odd_byte(REAL.to_vec(), 255)),
        ("without the last byte", REAL[..REAL.len() - 1].to_vec()),
        ("of every code", lists::every()),
        ("of 131071 bytes", all[..131_071].to_vec()),
        ("of 131072 bytes", all.clone()),
        ("of 131073 bytes", with_odd_byte(all.clone(), 0)),
        ("of 131074 bytes", [&all[..], &[255, 255]].concat()),
        ("of 131075 bytes", [&all[..], &[0, 0, 0]].concat()),
        ("of a million bytes", all.iter().copied().cycle().take(1_000_000).collect()),
        ("of a million bytes, falling early", falling.repeat(250_000)),
        ("that falls", falling),
        ("with a word twice", eng.repeat(2)),
    ];
    for (what, list) in &lists {
        folder.lend(list);
        compare(&folder, list, what);
    }
    println!("lists of any length: {} lists, no difference", lists.len());
}

/// Much more than any list has; a program needn't read it to its end.
#[test]
fn a_list_that_is_far_too_long() {
    let folder = Folder::new("langs far too long");
    let all = lists::all_words();
    folder.lend(&all);
    let file = File::options().write(true).open(folder.path().join(LANGS));
    file.and_then(|file| file.set_len(1 << 28)).expect("the list can be made longer");
    compare(&folder, &[&all[..], &[0, 0]].concat(), "of 256 MiB");
    println!("a list of 256 MiB: no difference");
}

#[test]
fn a_folder_or_a_ring_of_links_as_the_list() {
    let folder = Folder::new("langs as a folder");
    fs::create_dir(folder.path().join(LANGS)).expect("a folder can be made");
    must_complain(&folder, "is a folder");
    let ring = Folder::new("langs as a ring");
    symlink(LANGS, ring.path().join(LANGS)).expect("a link can be made");
    must_complain(&ring, "is a link to itself");
    println!("a folder or a ring of links as the list: {} lines", 2 * PROGRAMS.len() * 4);
}

/// The administrator may read every file: nothing to test then.
#[test]
fn a_list_without_permission() {
    let folder = Folder::new("langs without permission");
    folder.lend(&of_codes(&["eng"]));
    let file = folder.path().join(LANGS);
    fs::set_permissions(&file, Permissions::from_mode(0o000)).expect("permissions can be taken");
    match File::open(&file) {
        Ok(_) => println!("a list without permission: this user may read it, not tested"),
        Err(_) => must_complain(&folder, "without permission"),
    }
}

/// A list that is a pipe or a device can be read, too.
#[test]
fn a_link_to_a_list_elsewhere() {
    let folder = Folder::new("langs as a link");
    symlink("/dev/null", folder.path().join(LANGS)).expect("a link can be made");
    compare(&folder, &[], "is a link to /dev/null");
    println!("a link to a list elsewhere: no difference");
}

/// `sheetcheck` and `listen` as the examples' README calls them, in the folder of the examples.
#[test]
fn the_examples_with_their_list() {
    let examples = Path::new(env!("CARGO_MANIFEST_DIR")).join("../../../examples");
    for file in ["a.sheet", "play.sheet"] {
        let sheet = fs::read(examples.join(file)).expect("the sheet can be read");
        let input = || input::pipe(&sheet);
        let program =
            |name, arguments: &[&str]| -> Command { program_in(&examples, name, arguments) };
        run(program("sheetcheck", &[]), input()).must_say("accepted\n", file);
        run(program("sheetfigures", &[]), input()).must_say("accepted\n", file);
        let said = bench_answers(&sheet, REAL, SCRIPT);
        assert!(said.starts_with("done\n"));
        run(program("listen", &[file]), input::pipe(SCRIPT.as_bytes())).must_say(&said, file);
    }
    println!("the examples with their list: no difference");
}
