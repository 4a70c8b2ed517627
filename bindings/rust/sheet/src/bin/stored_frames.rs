//! Writes the stored inputs of block times into the folder of the program that checks them: the
//! inputs in `data`, their names, which are the program's arguments, in `args`, and the second
//! implementation's verdicts in `stdout`.

use std::{fs, io};

use sheet::generate::stored::given_folder;
use sheet::generate::stored_frames::files;

fn main() -> io::Result<()> {
    let folder = given_folder("stored_frames");
    fs::create_dir_all(folder.join("data"))?;
    files().into_iter().try_for_each(|(name, bytes)| fs::write(folder.join(name), bytes))
}
