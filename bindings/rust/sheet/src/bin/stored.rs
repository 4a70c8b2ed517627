//! Writes the stored sheets into the folder of the program that checks them: the sheets and the
//! lists lent beside them in `data`, their names, which are the program's arguments in pairs, in
//! `args`, and the second checker's verdicts in `stdout`.

use std::io;

use sheet::generate::stored::{expected, given_folder, sheets, write};

fn main() -> io::Result<()> {
    let folder = given_folder("stored");
    let sheets = sheets();
    write(&folder, &sheets, expected(&sheets))
}
