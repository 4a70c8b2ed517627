//! What it takes to run a program: where it is, what it reads, where it writes, and what it must say.

#[path = "built.rs"]
mod built;
#[path = "difference.rs"]
mod difference;
#[path = "folder.rs"]
pub mod folder;
#[path = "input.rs"]
pub mod input;
#[path = "outputs.rs"]
pub mod outputs;
#[path = "run.rs"]
pub mod run;
