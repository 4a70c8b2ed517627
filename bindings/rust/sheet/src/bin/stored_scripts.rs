//! Writes the stored scripts of listener calls into the folder of the program that plays them:
//! scripts, sheets and lists in `data`, the program's arguments in `args`, and what the second
//! listener answers in `stdout`.

use std::path::Path;
use std::{fs, io};

use sheet::generate::stored::given_folder;
use sheet::generate::stored_scripts::{arguments, expected, list_files, scripts, sheet_files};

fn main() -> io::Result<()> {
    write(&given_folder("stored_scripts"))
}

fn write(folder: &Path) -> io::Result<()> {
    let data = folder.join("data");
    fs::create_dir_all(&data)?;
    for (name, sheet) in sheet_files() {
        fs::write(data.join(name), sheet)?;
    }
    for (name, list) in list_files() {
        fs::write(data.join(name), list)?;
    }
    for script in scripts() {
        fs::write(data.join(script.name), script.text)?;
    }
    fs::write(folder.join("args"), arguments())?;
    fs::write(folder.join("stdout"), expected())
}
