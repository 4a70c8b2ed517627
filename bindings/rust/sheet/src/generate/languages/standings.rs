//! Where language words stand in a sheet.

use super::lists::{labels, QAA};
use crate::build::{language, Plan};
use crate::second::view::{content, programme, Place, Record, Sheet, CONTENT, PROGRAMME};

/// Where a language word stands.
#[derive(Clone, Copy, Debug, PartialEq, Eq, PartialOrd, Ord)]
pub enum Standing {
    /// The language of a programme.
    Programme,
    /// The language of a content.
    Content,
    /// A label of a programme.
    ProgrammeLabel,
    /// A label of a content.
    ContentLabel,
}

/// All of them.
pub const STANDINGS: [Standing; 4] =
    [Standing::Programme, Standing::Content, Standing::ProgrammeLabel, Standing::ContentLabel];

impl Standing {
    /// In words.
    pub fn name(self) -> &'static str {
        match self {
            Standing::Programme => "programme language",
            Standing::Content => "content language",
            Standing::ProgrammeLabel => "programme label",
            Standing::ContentLabel => "content label",
        }
    }

    /// The section of the records that have such a word.
    pub fn section(self) -> u8 {
        match self {
            Standing::Programme | Standing::ProgrammeLabel => PROGRAMME,
            Standing::Content | Standing::ContentLabel => CONTENT,
        }
    }

    /// Lets the word stand there in record 0; a label is the only one.
    pub fn put(self, plan: &mut Plan, word: u16) {
        match self {
            Standing::Programme => plan.programmes[0].language = word,
            Standing::Content => plan.contents[0].language = word,
            Standing::ProgrammeLabel => plan.programmes[0].labels = vec![word],
            Standing::ContentLabel => plan.contents[0].labels = vec![word],
        }
    }
}

/// Sheet A in a language from qaa to qtz, which needs no list.
pub fn local_a() -> Plan {
    let mut plan = Plan::sheet_a();
    plan.programmes[0].language = QAA;
    plan.contents[0].language = language("qtb");
    plan
}

/// The language words of a record, each with its standing.
pub struct Words {
    /// The record.
    pub place: Place,
    /// Its language.
    pub language: (Standing, u16),
    /// Where its labels stand.
    pub of_labels: Standing,
    /// Its labels.
    pub labels: Vec<u16>,
}

/// The words of every programme and content.
pub fn words(sheet: Sheet<'_>) -> impl Iterator<Item = Words> + '_ {
    let of_programme = |record: Record| Words {
        place: record.place(),
        language: (Standing::Programme, record.word(programme::LANGUAGE)),
        of_labels: Standing::ProgrammeLabel,
        labels: labels(&record, programme::LABELS).collect(),
    };
    let of_content = |record: Record| Words {
        place: record.place(),
        language: (Standing::Content, record.word(content::LANGUAGE)),
        of_labels: Standing::ContentLabel,
        labels: labels(&record, content::LABELS).collect(),
    };
    let programmes = sheet.records(PROGRAMME).map(of_programme);
    programmes.chain(sheet.records(CONTENT).map(of_content))
}
