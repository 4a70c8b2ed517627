//! Writes the stored sheets of which figures are told into the folder of the program that tells
//! them: the sheets and the lists lent beside them in `data`, their names, which are the program's
//! arguments in pairs, in `args`, and what the second implementation tells in `stdout`.

use std::io;

use sheet::generate::stored::{given_folder, write};
use sheet::generate::stored_figures::{expected, sheets};

fn main() -> io::Result<()> {
    let folder = given_folder("stored_figures");
    let sheets = sheets();
    write(&folder, &sheets, expected(&sheets))
}
