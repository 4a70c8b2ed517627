//! Sheets of the tables as files, to count the instructions of their checks (`tools/check-cost`).

use std::path::Path;
use std::{fs, io};

use crate::{growth, sheets};

/// Writes each sheet as a file `000.sheet`, its list as `000.langs`, and its name as a line of
/// `names`, in the order of the numbers.
pub fn write_sheets(folder: &Path) -> io::Result<()> {
    fs::create_dir_all(folder)?;
    let mut names = String::new();
    for (number, (name, sheet, langs)) in all()?.into_iter().enumerate() {
        fs::write(folder.join(format!("{number:03}.sheet")), sheet)?;
        fs::write(folder.join(format!("{number:03}.langs")), langs)?;
        names.push_str(&name);
        names.push('\n');
    }
    fs::write(folder.join("names"), names)
}

/// The sheets of the first table, and those of the growth of the honest families, whose names have
/// their bytes.
fn all() -> io::Result<Vec<(String, Vec<u8>, Vec<u8>)>> {
    let mut all: Vec<_> = sheets()?.into_iter().map(|g| (g.name, g.sheet, g.langs)).collect();
    for (family, sheets) in growth::families() {
        if family.starts_with("honest") {
            let named = |(sheet, langs): (Vec<u8>, Vec<u8>)| {
                (format!("{family}, {} bytes", sheet.len()), sheet, langs)
            };
            all.extend(sheets.into_iter().map(named));
        }
    }
    Ok(all)
}
