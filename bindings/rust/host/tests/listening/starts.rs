//! The host's listing of a programme's start, against the second listener: what it lists after
//! opening the sheet and choosing the programme, all lent one list.

use std::collections::BTreeMap;
use std::fmt;

use sheet::generate::languages::lend::lend;
use sheet::generate::random::Random;
use sheet::generate::stored_scripts::{list_files, sheet_files};
use sheet::second::listener::{Refusal, State};

/// A byte that stands in a buffer before the call; no listing has such a high byte.
const UNTOUCHED: u8 = 0xa5;
/// Enough bytes for every listing.
const ENOUGH: usize = 56;
/// Every answer: a listing, at 0, and the refusals.
const ANSWERS: [u8; 4] = [0, 25, 27, 32];

/// What the second listener lists.
type Entries = Result<Vec<u16>, Refusal>;
/// Number and buffer, or the refusal's number and the buffer.
type Listing = (Result<usize, u8>, Vec<u8>);

/// Compares starts, with random numbers and buffers, and counts the answers.
pub struct Starts {
    random: Random,
    met: BTreeMap<u8, usize>,
}

impl Starts {
    /// No starts yet; random ones come from the seed.
    pub fn new(seed: u64) -> Starts {
        Starts { random: Random::new(seed), met: BTreeMap::new() }
    }

    /// Compares all programmes of the stored sheets, and numbers beyond.
    pub fn compare_stored(&mut self) -> Result<(), String> {
        for (name, sheet) in sheet_files() {
            for (list, langs) in list_files() {
                let compared = self.compare_all_programmes(&sheet, &langs);
                compared.map_err(|difference| format!("{name}, {list}: {difference}"))?;
            }
        }
        Ok(())
    }

    fn compare_all_programmes(&mut self, sheet: &[u8], langs: &[u8]) -> Result<(), String> {
        let programmes = programmes(sheet);
        for programme in (0..=programmes).chain([65535, 65536, 65536 + programmes, u32::MAX]) {
            let entries = entries_of_start(sheet, langs, programme);
            for bytes in lengths(&entries) {
                self.compare(sheet, langs, programme, &entries, bytes)?;
            }
        }
        Ok(())
    }

    /// Compares a random start under the list and under one at random, in turn.
    pub fn compare_random(&mut self, sheet: &[u8], langs: &[u8]) -> Result<(), String> {
        self.compare_one(sheet, langs)?;
        let (other, _) = lend(&mut self.random, sheet, None);
        self.compare_one(sheet, &other)?;
        self.compare_one(sheet, langs)
    }

    /// Compares a random programme, or a number that the sheet lacks, on a random buffer.
    fn compare_one(&mut self, sheet: &[u8], langs: &[u8]) -> Result<(), String> {
        let programmes = programmes(sheet);
        let existing = self.random.below(programmes as usize) as u32;
        let any = self.random.bits() as u32;
        let lacking = [programmes, 65536 + existing, any];
        let programme = match self.random.chance(85) {
            true => existing,
            false => self.random.pick(&lacking),
        };
        let entries = entries_of_start(sheet, langs, programme);
        let bytes = self.random.pick(&lengths(&entries));
        self.compare(sheet, langs, programme, &entries, bytes)
    }

    fn compare(
        &mut self,
        sheet: &[u8],
        langs: &[u8],
        programme: u32,
        entries: &Entries,
        bytes: usize,
    ) -> Result<(), String> {
        let (proved, second) = (proved(sheet, langs, programme, bytes), second(entries, bytes));
        *self.met.entry(second.0.err().unwrap_or(0)).or_default() += 1;
        match proved == second {
            true => Ok(()),
            false => Err(format!(
                "start of {programme} in {bytes} bytes: proved {proved:?}, second {second:?}"
            )),
        }
    }

    /// Whether every answer was met.
    pub fn all_met(&self) -> bool {
        self.met.keys().copied().eq(ANSWERS)
    }
}

impl fmt::Display for Starts {
    fn fmt(&self, formatter: &mut fmt::Formatter) -> fmt::Result {
        let [listed, not_accepted, no_programme, too_small] =
            ANSWERS.map(|answer| self.met.get(&answer).unwrap_or(&0));
        write!(formatter, "starts: {listed} listed, refused by 25 {not_accepted}, ")?;
        write!(formatter, "by 27 {no_programme}, by 32 {too_small}, no difference")
    }
}

/// How many programmes the header names.
fn programmes(sheet: &[u8]) -> u32 {
    sheet.get(4..6).map_or(0, |word| 256 * u32::from(word[0]) + u32::from(word[1]))
}

/// Lengths of buffers: none, too short, just enough, longer.
fn lengths(entries: &Entries) -> [usize; 7] {
    let enough = 2 * entries.as_ref().map_or(1, Vec::len);
    [0, enough - 2, enough - 1, enough, enough + 1, ENOUGH, ENOUGH + 3]
}

fn proved(sheet: &[u8], langs: &[u8], programme: u32, bytes: usize) -> Listing {
    let mut buffer = vec![UNTOUCHED; bytes];
    let answer = host::start_listing(sheet, langs, programme, &mut buffer);
    (answer.map_err(host::Refusal::number), buffer)
}

fn second(entries: &Entries, bytes: usize) -> Listing {
    let mut buffer = vec![UNTOUCHED; bytes];
    let number = entries.as_ref().map_err(|refusal| *refusal).and_then(|entries| {
        let space = buffer.get_mut(..2 * entries.len()).ok_or(Refusal::BufferTooSmall)?;
        space.copy_from_slice(&sheet::build::bytes(entries));
        Ok(entries.len())
    });
    (number.map_err(Refusal::number), buffer)
}

/// What is listed once the sheet is opened and the programme chosen.
fn entries_of_start(sheet: &[u8], langs: &[u8], programme: u32) -> Entries {
    let (opened, answer) = State::open(sheet, langs);
    answer?;
    let (started, answer) = opened.choose_programme(sheet, langs, programme as usize);
    answer?;
    let mut buffer = [0; ENOUGH / 2];
    let entries = started.list(sheet, langs, &mut buffer)?;
    Ok(buffer[..entries].to_vec())
}
