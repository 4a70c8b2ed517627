//! `listen` on the stored scripts, which come to it in several ways.

use sheet::script::bench_answers;

use crate::folder::Folder;
use crate::input::{self, Input};
use crate::run::{program_in, run};
use crate::stored::{self, Script};

/// Plays scripts on `listen`, which must answer each as the second listener does.
fn compare(way: &str, scripts: &[Script], input: impl Fn(&[u8]) -> Input<'_>) {
    let mut lines = 0;
    let folder = Folder::new(&format!("listen {way}"));
    for Script { file, text, sheet } in scripts {
        folder.lend(&sheet.langs);
        let listen = program_in(folder.path(), "listen", &[&sheet.file]);
        let said = bench_answers(&sheet.bytes, &sheet.langs, text);
        let run = run(listen, input(text.as_bytes()));
        lines += run.must_say(&said, &format!("{file}, {way}"));
    }
    println!("listen, {way}: {} scripts, {lines} lines, no difference", scripts.len());
}

#[test]
fn stored_scripts() {
    compare("as stored", &stored::scripts(), input::pipe);
}

#[test]
fn stored_scripts_in_pieces() {
    let scripts = stored::scripts();
    for size in [1, 3, 20] {
        let way = format!("in reads of {size}");
        compare(&way, &scripts, |text| input::pieces(text, size));
    }
}

#[test]
fn stored_scripts_with_carriage_returns() {
    let mut scripts = stored::scripts();
    for script in &mut scripts {
        script.text = script.text.replace('\n', "\r\n");
    }
    compare("with carriage returns", &scripts, input::pipe);
}
