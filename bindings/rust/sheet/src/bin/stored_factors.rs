//! Writes the stored lines of factors into the folder of the program that gives their gains: its
//! input in `stdin`, and what the second implementation answers in `stdout`.

use std::{fs, io};

use sheet::generate::stored::given_folder;
use sheet::generate::stored_factors::{expected, input};

fn main() -> io::Result<()> {
    let folder = given_folder("stored_factors");
    fs::create_dir_all(&folder)?;
    fs::write(folder.join("stdin"), input())?;
    fs::write(folder.join("stdout"), expected())
}
