//! A builder of sheets: records with their lists given as vectors, laid out in sections.
//!
//! The builder checks nothing, so that broken sheets can be built too.

use crate::second::view::RECORD_WORDS;

/// A gain, offset or range word that isn't there.
pub const ABSENT: i16 = 32767;
/// The gain of silence.
pub const SILENCE: i16 = -32768;
/// A range of which both words are absent.
pub const NO_RANGE: (i16, i16) = (ABSENT, ABSENT);
/// The pack of an object that has none.
pub const NO_PACK: u16 = 65535;

/// Words in the largest sheet.
pub const LARGEST: usize = 32_767;

/// A programme, section 1.
#[derive(Clone, Debug)]
pub struct Programme {
    /// Language word.
    pub language: u16,
    /// Contents, by index.
    pub contents: Vec<u16>,
    /// Value sets, by index.
    pub sets: Vec<u16>,
    /// Label languages.
    pub labels: Vec<u16>,
    /// 1 to 3.
    pub loudness: u16,
}

/// A content, section 2.
#[derive(Clone, Debug)]
pub struct Content {
    /// Language word.
    pub language: u16,
    /// Its top object, by index.
    pub object: u16,
    /// Label languages.
    pub labels: Vec<u16>,
    /// 1 to 3.
    pub loudness: u16,
}

/// An object, section 3.
#[derive(Clone, Debug)]
pub struct Object {
    /// Its pack, by index, or `NO_PACK`.
    pub pack: u16,
    /// Tracks, by index.
    pub tracks: Vec<u16>,
    /// Children, by index.
    pub children: Vec<u16>,
    /// Complements, by index.
    pub complements: Vec<u16>,
    /// 0 or 1.
    pub interact: u16,
    /// Gain, offset and ranges.
    pub values: Values,
    /// First and count in section 7.
    pub set_span: (u16, u16),
}

/// A pack, section 4.
#[derive(Clone, Copy, Debug)]
pub struct Pack {
    /// 1 DirectSpeakers, 3 Objects.
    pub kind: u16,
    /// Number of channels.
    pub channels: u16,
    /// 0 or 1.
    pub front: u16,
}

/// A track, section 5.
#[derive(Clone, Copy, Debug)]
pub struct Track {
    /// Its pack, by index.
    pub pack: u16,
    /// The channel of the pack.
    pub ordinal: u16,
}

/// A value set, section 7.
#[derive(Clone, Copy, Debug, PartialEq, Eq)]
pub struct ValueSet {
    /// 0 or 1.
    pub own: u16,
    /// Gain, offset and ranges.
    pub values: Values,
}

/// The six words that objects and value sets have alike.
#[derive(Clone, Copy, Debug, PartialEq, Eq)]
pub struct Values {
    /// Tenths of a dB, `SILENCE` or `ABSENT`.
    pub gain: i16,
    /// Minimum and maximum.
    pub gain_range: (i16, i16),
    /// Tenths of a degree or `ABSENT`.
    pub offset: i16,
    /// Minimum and maximum.
    pub offset_range: (i16, i16),
}

impl Values {
    /// All six words absent.
    pub const NONE: Values =
        Values { gain: ABSENT, gain_range: NO_RANGE, offset: ABSENT, offset_range: NO_RANGE };
}

impl ValueSet {
    /// Own 0, all else absent.
    pub const NONE: ValueSet = ValueSet { own: 0, values: Values::NONE };
}

/// All records of a sheet.
#[derive(Clone, Debug)]
pub struct Plan {
    /// The level.
    pub level: u16,
    /// Section 1.
    pub programmes: Vec<Programme>,
    /// Section 2.
    pub contents: Vec<Content>,
    /// Section 3.
    pub objects: Vec<Object>,
    /// Section 4.
    pub packs: Vec<Pack>,
    /// Section 5.
    pub tracks: Vec<Track>,
    /// Section 7.
    pub value_sets: Vec<ValueSet>,
    /// Entries of section 6 after those of all lists.
    pub stray_entries: Vec<u16>,
    /// Whether a list that already stands in section 6 is used again.
    pub shares_entries: bool,
}

impl Plan {
    /// A sheet without a record.
    pub fn new(level: u16) -> Plan {
        Plan {
            level,
            programmes: Vec::new(),
            contents: Vec::new(),
            objects: Vec::new(),
            packs: Vec::new(),
            tracks: Vec::new(),
            value_sets: Vec::new(),
            stray_entries: Vec::new(),
            shares_entries: false,
        }
    }

    /// Sheet A of document 01.
    pub fn sheet_a() -> Plan {
        let mut plan = Plan::new(1);
        let pack = plan.add_pack(1, 1, 0);
        let object = plan.add_object(pack);
        let content = plan.add_content(object);
        plan.add_programme(vec![content]);
        plan
    }

    /// Adds a pack, and a track for each of its channels.
    pub fn add_pack(&mut self, kind: u16, channels: u16, front: u16) -> u16 {
        let pack = word(self.packs.len());
        self.packs.push(Pack { kind, channels, front });
        self.tracks.extend((0..channels).map(|ordinal| Track { pack, ordinal }));
        pack
    }

    /// Adds an object on a pack, with the first track of each channel.
    pub fn add_object(&mut self, pack: u16) -> u16 {
        let tracks = self.tracks_of_pack(pack);
        self.push_object(pack, tracks, Vec::new())
    }

    /// The first track of each channel of a pack.
    pub fn tracks_of_pack(&self, pack: u16) -> Vec<u16> {
        let channels = self.packs[usize::from(pack)].channels;
        let is_channel = |track: &Track, ordinal| track.pack == pack && track.ordinal == ordinal;
        (0..channels)
            .filter_map(|ordinal| self.tracks.iter().position(|t| is_channel(t, ordinal)))
            .map(word)
            .collect()
    }

    /// Adds an object with children.
    pub fn add_parent(&mut self, children: Vec<u16>) -> u16 {
        self.push_object(NO_PACK, Vec::new(), children)
    }

    fn push_object(&mut self, pack: u16, tracks: Vec<u16>, children: Vec<u16>) -> u16 {
        self.objects.push(Object {
            pack,
            tracks,
            children,
            complements: Vec::new(),
            interact: 0,
            values: Values::NONE,
            set_span: (0, 0),
        });
        word(self.objects.len() - 1)
    }

    /// Adds a content that names the object.
    pub fn add_content(&mut self, object: u16) -> u16 {
        self.contents.push(Content {
            language: language("eng"),
            object,
            labels: Vec::new(),
            loudness: 1,
        });
        word(self.contents.len() - 1)
    }

    /// Adds a programme of the contents.
    pub fn add_programme(&mut self, contents: Vec<u16>) -> u16 {
        self.programmes.push(Programme {
            language: language("eng"),
            contents,
            sets: Vec::new(),
            labels: Vec::new(),
            loudness: 1,
        });
        word(self.programmes.len() - 1)
    }

    /// Adds a content that names the object, in programme 0.
    pub fn include(&mut self, object: u16) -> u16 {
        let content = self.add_content(object);
        self.programmes[0].contents.push(content);
        content
    }

    /// Makes an object a parent, without pack and tracks.
    pub fn make_parent(&mut self, object: u16, children: Vec<u16>) {
        let object = &mut self.objects[usize::from(object)];
        object.pack = NO_PACK;
        object.tracks.clear();
        object.children = children;
    }

    /// Adds value sets as the span of an object.
    pub fn add_sets(&mut self, object: u16, sets: &[ValueSet]) {
        let span = (word(self.value_sets.len()), word(sets.len()));
        self.objects[usize::from(object)].set_span = span;
        self.value_sets.extend(sets);
    }

    /// The plan with unused entries that make it the largest sheet.
    pub fn filled(self) -> Plan {
        self.filled_to(LARGEST)
    }

    /// The plan with unused entries that make it a sheet of so many words.
    pub fn filled_to(mut self, words: usize) -> Plan {
        let unused = words.saturating_sub(self.words().len());
        self.stray_entries.extend(vec![0; unused]);
        self
    }

    /// The words of the sheet.
    pub fn words(&self) -> Vec<u16> {
        let mut references = References { entries: Vec::new(), shares: self.shares_entries };
        let programmes = self.programmes.iter().map(|p| p.words(&mut references));
        let programmes: Vec<u16> = programmes.flatten().collect();
        let contents = self.contents.iter().map(|c| c.words(&mut references));
        let contents: Vec<u16> = contents.flatten().collect();
        let objects = self.objects.iter().map(|o| o.words(&mut references));
        let objects: Vec<u16> = objects.flatten().collect();
        let packs = self.packs.iter().flat_map(|p| [p.kind, p.channels, p.front]);
        let tracks = self.tracks.iter().flat_map(|t| [t.pack, t.ordinal]);
        let sets = self.value_sets.iter().flat_map(|set| set.words());
        references.entries.extend(&self.stray_entries);
        let sections = [
            programmes,
            contents,
            objects,
            packs.collect(),
            tracks.collect(),
            references.entries,
            sets.collect(),
        ];
        let mut words = header(self.level, &sections);
        words.extend(sections.iter().flatten());
        words
    }

    /// The bytes of the sheet.
    pub fn bytes(&self) -> Vec<u8> {
        bytes(&self.words())
    }
}

impl Programme {
    fn words(&self, references: &mut References) -> Vec<u16> {
        let mut words = vec![self.language];
        words.extend(references.list(&self.contents));
        words.extend(references.list(&self.sets));
        words.extend(references.list(&self.labels));
        words.push(self.loudness);
        words
    }
}

impl Content {
    fn words(&self, references: &mut References) -> Vec<u16> {
        let mut words = vec![self.language, self.object];
        words.extend(references.list(&self.labels));
        words.push(self.loudness);
        words
    }
}

impl Object {
    fn words(&self, references: &mut References) -> Vec<u16> {
        let mut words = vec![self.pack];
        words.extend(references.list(&self.tracks));
        words.extend(references.list(&self.children));
        words.extend(references.list(&self.complements));
        words.push(self.interact);
        words.extend(self.values.words());
        words.extend([self.set_span.0, self.set_span.1]);
        words
    }
}

impl ValueSet {
    fn words(&self) -> [u16; 7] {
        let [gain, rest @ ..] = self.values.words();
        let mut words = [gain, self.own, 0, 0, 0, 0, 0];
        words[2..].copy_from_slice(&rest);
        words
    }
}

impl Values {
    fn words(&self) -> [u16; 6] {
        [
            self.gain,
            self.gain_range.0,
            self.gain_range.1,
            self.offset,
            self.offset_range.0,
            self.offset_range.1,
        ]
        .map(|value| value as u16)
    }
}

/// Section 6 as it grows.
struct References {
    entries: Vec<u16>,
    shares: bool,
}

impl References {
    /// Places the entries of a list; gives the two words of the list.
    fn list(&mut self, list: &[u16]) -> [u16; 2] {
        if list.is_empty() {
            return [0, 0];
        }
        let standing = match self.shares {
            true => self.entries.windows(list.len()).position(|run| run == list),
            false => None,
        };
        let first = standing.unwrap_or(self.entries.len());
        if standing.is_none() {
            self.entries.extend(list);
        }
        [word(first), word(list.len())]
    }
}

fn header(level: u16, sections: &[Vec<u16>; 7]) -> Vec<u16> {
    let mut words = vec![1, level];
    let mut offset = RECORD_WORDS[0];
    for (section, size) in sections.iter().zip(&RECORD_WORDS[1..]) {
        words.extend([word(section.len() / size), word(offset)]);
        offset += section.len();
    }
    words
}

/// Where a field of a record stands in a sheet that was laid out without gaps.
pub fn position(words: &[u16], section: u8, record: usize, field: usize) -> usize {
    let section = usize::from(section);
    let offset = usize::from(words[2 * section + 1]);
    offset + RECORD_WORDS[section] * record + field
}

/// Overwrites a field of a record.
pub fn overwrite(words: &mut [u16], section: u8, record: usize, field: usize, value: u16) {
    let position = position(words, section, record, field);
    words[position] = value;
}

/// Words as bytes, high byte first.
pub fn bytes(words: &[u16]) -> Vec<u8> {
    words.iter().flat_map(|word| word.to_be_bytes()).collect()
}

/// The word of a language of three small letters.
pub fn language(letters: &str) -> u16 {
    letters.bytes().fold(0, |word, letter| 32 * word + u16::from(letter - b'a' + 1))
}

/// A number that fits in a word.
pub fn word(number: usize) -> u16 {
    u16::try_from(number).expect("a number above 65,535 fits in no word of a sheet")
}
