//! How the times grow with the sheet: each family of sheets from 1 KiB to the largest size.

use std::io;
use std::time::Duration;

use sheet::build::{Plan, LARGEST};
use sheet::generate::languages::lists::REAL;
use sheet::generate::{honest, hostile};

use crate::timer::{least_times, quotient, shown, Times};

/// The sizes in words.
const SIZES: [usize; 7] = [512, 1024, 2048, 4096, 8192, 16_384, LARGEST];
/// The checkers take turns until so much time is gone.
const TURNS: Duration = Duration::from_millis(300);

/// Prints a table for each family with the text in its name.
pub fn print_tables(text: &str) -> io::Result<()> {
    for (name, sheets) in families() {
        if name.contains(text) {
            println!("\ngrowth of {name}");
            print_growth(&sheets)?;
        }
    }
    Ok(())
}

/// A sheet, and the list that is lent beside it.
pub type Lent = (Vec<u8>, Vec<u8>);

/// The families by name, each with its sheets by rising size.
pub fn families() -> Vec<(String, Vec<Lent>)> {
    let honest = |of: fn(usize) -> Plan| SIZES.map(|words| (of(words).bytes(), REAL.to_vec()));
    let mut families = vec![
        ("honest short episodes".to_string(), honest(honest::of_words).to_vec()),
        ("honest labels".to_string(), honest(honest::of_labels).to_vec()),
    ];
    let hostile: Vec<_> = SIZES.into_iter().map(hostile::sheets_of).collect();
    for (number, family) in hostile[0].iter().enumerate() {
        let of_family = hostile.iter().map(|sheets| &sheets[number]);
        let sheets = of_family.map(|family| (family.sheet.clone(), family.langs.clone()));
        families.push((family.name.clone(), sheets.collect()));
    }
    families
}

/// Once the proved checker is over the limit, it isn't tried on larger sheets of the family.
fn print_growth(sheets: &[Lent]) -> io::Result<()> {
    let heads = ["bytes", "proved", "per byte", "fast", "per byte", "to fast"];
    print_row(heads.map(String::from));
    let mut with_proved = true;
    for (sheet, langs) in sheets {
        let Times { proved, fast, .. } = least_times(sheet, langs, TURNS, with_proved)?;
        with_proved = proved.is_some();
        let per_byte = |time: Option<Duration>| shown_per_byte(time, sheet.len());
        print_row([
            sheet.len().to_string(),
            shown(proved),
            per_byte(proved),
            shown(fast),
            per_byte(fast),
            quotient(proved, fast),
        ]);
    }
    Ok(())
}

fn print_row(cells: [String; 6]) {
    println!("{}", cells.map(|cell| format!(" {cell:>12}")).concat());
}

fn shown_per_byte(time: Option<Duration>, bytes: usize) -> String {
    time.map_or(String::new(), |time| format!("{:.2}ns", time.as_secs_f64() * 1e9 / bytes as f64))
}
