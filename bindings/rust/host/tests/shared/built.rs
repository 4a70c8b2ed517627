//! The programs of this repository.

use std::path::{Path, PathBuf};

/// The crates, from this package's folder; a program is written to the folder `out` of its crate.
const CRATES: &str = "../../../crates";

/// The file of a program, if it was built.
pub fn program(name: &str) -> Result<PathBuf, String> {
    let out = Path::new(env!("CARGO_MANIFEST_DIR")).join(CRATES).join(name).join("out");
    let file = out.join(name);
    match file.is_file() {
        true => Ok(file),
        false => Err(format!("{} is missing: run `tools/build {name}`", file.display())),
    }
}
