//! The test of the block times of live frames: the host call on generated lists of blocks, and the
//! program `framecheck` on inputs that come in several ways and at a user's slips, held to the
//! second implementation, which was written apart from them. A test fails at the first difference
//! and says it, or if a class of lists was never met.

mod calls;
mod lengths;
mod program;
#[path = "../shared/running.rs"]
mod running;
mod slips;

use running::{folder, input, outputs, run};
