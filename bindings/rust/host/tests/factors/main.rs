//! The test of the gains of plain factors: the host call on every factor up to the largest and on
//! others beyond, and the program `gaintenths` on lines of all kinds and at a user's slips, held to
//! the second computation, which was written apart from them. A test fails at the first difference
//! and says it.

mod calls;
mod lines;
mod met;
#[path = "../shared/running.rs"]
mod running;
mod slips;

use running::{folder, input, outputs, run};
