//! The differential test of the listener: the proved one, played by the program `listentest`,
//! against the second one, which was written apart from it, on call lists from fixed seeds.
//!
//! Answers, states and listings are compared line by line. Where a list starts from an opening and
//! no state is handed in from elsewhere, demand 3 is tested after every call, on what the proved
//! listener printed. The test prints how often each call met each answer. It fails at the first
//! difference, whose sheet, list and script are kept as files, or if an answer that document 01
//! names was never met, or no call was refused under another list than its opening's.
//!
//! The host's listing of a programme's start is compared on the same sheets, under several lists.

#[path = "../shared/built.rs"]
mod built;
mod counts;
#[path = "../shared/difference.rs"]
mod difference;
mod program;
mod starts;

use std::fs;
use std::path::Path;
use std::process::ExitCode;

use counts::Counts;
use difference::first_difference;
use sheet::build::Plan;
use sheet::demand_3::Demand;
use sheet::generate::calls::Call;
use sheet::generate::scripts::{RandomScripts, Script};
use sheet::script::{read_answers, Line, Said};
use starts::Starts;

const SEEDS: [u64; 3] = [2168, 2076, 65_534];
const SCRIPTS_OF_A_SEED: usize = 7_000;
/// How many scripts one run of the program plays.
const SCRIPTS_OF_A_RUN: usize = 250;

fn main() -> ExitCode {
    match compare_all() {
        Ok(true) => ExitCode::SUCCESS,
        Ok(false) => ExitCode::FAILURE,
        Err(difference) => {
            println!("{difference}");
            ExitCode::FAILURE
        }
    }
}

/// Whether all answers were met, where there is no difference.
fn compare_all() -> Result<bool, String> {
    let mut counts = Counts::default();
    let mut starts = Starts::new(SEEDS[0]);
    starts.compare_stored()?;
    for seed in SEEDS {
        let mut scripts = RandomScripts::new(seed).take(SCRIPTS_OF_A_SEED).peekable();
        while scripts.peek().is_some() {
            let batch: Vec<Script> = scripts.by_ref().take(SCRIPTS_OF_A_RUN).collect();
            for (script, proved) in batch.iter().zip(program::play(&batch)?) {
                let kept = |difference| format!("{difference}\n    {}", keep(script));
                counts.add(script, &compare(script, &proved).map_err(kept)?);
                starts.compare_random(&script.sheet, &script.langs).map_err(kept)?;
            }
        }
    }
    println!("{starts}\n{counts}");
    Ok(counts.all_met() && starts.all_met())
}

/// What the proved listener said, if the second one says the same and demand 3 is kept.
fn compare(script: &Script, proved: &str) -> Result<Vec<Said>, String> {
    if let Some(difference) = first_difference(&script.answers, proved) {
        return Err(difference);
    }
    let said = read_answers(proved).ok_or("answers that can't be read")?;
    if let Some(plan) = &script.due {
        check_demand(plan, &script.lines, &said)?;
    }
    Ok(said)
}

/// Demand 3 after the opening and after every call, on what the proved listener said.
fn check_demand(plan: &Plan, lines: &[Line], said: &[Said]) -> Result<(), String> {
    let mut demand = Demand { plan, programme: 0 };
    let mut state = None;
    for (line, said) in lines.iter().zip(&said[1..]) {
        match (line, said) {
            (Line::Open, Said::Done) => demand.programme = 0,
            (Line::Call(Call::ChooseProgramme(programme)), Said::Done) => {
                demand.programme = usize::from(*programme);
            }
            (Line::State, Said::State(now)) => state = Some(now),
            (Line::List, Said::Tracks(entries)) => {
                let state = state.ok_or("a listing before the state was shown")?;
                demand.check(state, entries).map_err(|breach| format!("demand 3: {breach}"))?;
            }
            (Line::List, refused) => return Err(format!("demand 3: a listing gave {refused:?}")),
            _ => (),
        }
    }
    Ok(())
}

/// Keeps the sheet, its list and the script as files; says where.
fn keep(script: &Script) -> String {
    let folder = Path::new(env!("CARGO_TARGET_TMPDIR"));
    let [sheet, langs, text] =
        ["sheet", "langs", "script"].map(|kind| folder.join("difference").with_extension(kind));
    fs::write(&sheet, &script.sheet).expect("the sheet can be written");
    fs::write(&langs, &script.langs).expect("the list can be written");
    fs::write(&text, script.text()).expect("the script can be written");
    format!("kept as {}, {} and {}", sheet.display(), langs.display(), text.display())
}
