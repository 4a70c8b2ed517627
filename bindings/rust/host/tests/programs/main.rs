//! The test of the programs themselves: `sheetcheck` on the stored sheets, held to the second
//! checker, `listen` on the stored scripts, held to the second listener, and both, and
//! `sheetfigures`, with all sorts of files `langs` and at a user's slips. A test fails at the first
//! difference and says it.

mod langs;
#[path = "../shared/running.rs"]
mod running;
mod scripts;
mod sheets;
mod slips;
mod stored;
#[path = "../shared/verdicts.rs"]
mod verdicts;

use running::{folder, input, outputs, run};
