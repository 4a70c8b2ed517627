//! Rule 14: the tracks of an object are the channels of its pack, each once.

use super::at;
use super::runs::{next_repeats, reaches};
use super::sections::{index, list, word, Object, Pack, Reference, Sections};
use crate::second::view::{object, pack, track, List, OBJECT};
use crate::second::Verdict;

pub fn rule_14(sheet: &Sections) -> Result<(), Verdict> {
    let mut runs = None;
    let bad = |object: &Object| match sheet.pack_of(object) {
        None => list(object, object::TRACKS).count != 0,
        Some(pack) => !tracks_fit(sheet, &mut runs, object, pack),
    };
    at(14, OBJECT, sheet.objects.iter().position(bad))
}

/// Up to 64 tracks are walked, with a bit for each ordinal.
fn tracks_fit(sheet: &Sections, runs: &mut Option<Runs>, object: &Object, pack: &Pack) -> bool {
    let tracks = list(object, object::TRACKS);
    let number = word(object, object::PACK);
    tracks.count == index(pack, pack::CHANNELS)
        && match tracks.count {
            0..=64 => are_channels(sheet, number, tracks),
            _ => runs.get_or_insert_with(|| Runs::of(sheet)).are_channels(sheet, number, tracks),
        }
}

/// Whether the tracks are of the pack and have so many ordinals as there are tracks.
fn are_channels(sheet: &Sections, pack: u16, tracks: List) -> bool {
    let mut ordinals: u64 = 0;
    let of_pack = sheet.entries(tracks).all(|track| {
        let track = &sheet.tracks[track];
        let ordinal = index(track, track::ORDINAL);
        let is_channel = word(track, track::PACK) == pack && ordinal < tracks.count;
        ordinals |= 1 << (ordinal % 64);
        is_channel
    });
    of_pack && ordinals.count_ones() as usize == tracks.count
}

/// What the entries of section 6 are, read as tracks.
struct Runs {
    /// For each index, where the run of entries of one pack ends.
    ends: Vec<u16>,
    /// For each index, where an ordinal comes twice next.
    repeats: Vec<u16>,
    /// For each index, the sum of the ordinals before.
    sums: Vec<u32>,
}

impl Runs {
    fn of(sheet: &Sections) -> Runs {
        let track = |entry: usize| sheet.tracks.get(entry);
        let ordinal = |entry| track(entry).map(|track| index(track, track::ORDINAL));
        let pack = |entry| track(entry).map(|track| word(track, track::PACK));
        Runs {
            ends: run_ends(sheet.references, pack),
            repeats: next_repeats(sheet.references, sheet.references.len(), ordinal),
            sums: sums(sheet.references, ordinal),
        }
    }

    /// Different ordinals that add up to 0 + 1 + .. + (n - 1) are these numbers: others
    /// would add up to more. Ordinals that `repeats` passes over are too large for that.
    fn are_channels(&self, sheet: &Sections, pack: u16, tracks: List) -> bool {
        let end = tracks.first + tracks.count;
        let first = &sheet.tracks[index(&sheet.references[tracks.first], 0)];
        word(first, track::PACK) == pack
            && usize::from(self.ends[tracks.first]) >= end
            && !reaches(&self.repeats, tracks)
            && (self.sums[end] - self.sums[tracks.first]) as usize
                == tracks.count * (tracks.count - 1) / 2
    }
}

fn run_ends(references: &[Reference], pack: impl Fn(usize) -> Option<u16>) -> Vec<u16> {
    let mut ends = vec![0; references.len()];
    let mut end = references.len();
    let mut pack_after = None;
    for (place, entry) in references.iter().enumerate().rev() {
        let pack = pack(index(entry, 0));
        if pack != pack_after {
            end = place + 1;
        }
        pack_after = pack;
        ends[place] = end as u16;
    }
    ends
}

/// At most 32,767 times 65,535, which 32 bits hold.
fn sums(references: &[Reference], ordinal: impl Fn(usize) -> Option<usize>) -> Vec<u32> {
    let ordinals = references.iter().map(|entry| ordinal(index(entry, 0)).unwrap_or(0) as u32);
    let sums = ordinals.scan(0, |sum, ordinal| {
        *sum += ordinal;
        Some(*sum)
    });
    std::iter::once(0).chain(sums).collect()
}
