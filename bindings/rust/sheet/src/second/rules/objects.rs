//! Rules 13 to 15: packs, children and tracks of an object, and what only a top object
//! may have.

use super::least;
use crate::second::terms::{
    has_children, has_pack_of_kind_3, is_leader, namings, pack_of, top_objects, tracks_of,
};
use crate::second::view::{object, pack, track, Place, Record, Sheet, OBJECT};

/// "An object has both pack and children or neither, or a child without a pack of kind 3."
/// "In 13 the place of a bad child is its parent."
pub fn rule_13(sheet: Sheet) -> Option<Place> {
    let bad = |object: &Record| {
        pack_of(object).is_some() == has_children(object)
            || !object.named(object::CHILDREN, OBJECT).all(|child| has_pack_of_kind_3(&child))
    };
    least(sheet.records(OBJECT).filter(bad))
}

/// "An object's tracks: not as many as its pack's channels (0 with children), one of
/// another pack, or ordinals that aren't each channel once."
pub fn rule_14(sheet: Sheet) -> Option<Place> {
    let bad = |object: &Record| match pack_of(object) {
        None => object.list(object::TRACKS).count != 0,
        Some(pack) => !tracks_fit(object, &pack),
    };
    least(sheet.records(OBJECT).filter(bad))
}

fn tracks_fit(object: &Record, pack: &Record) -> bool {
    let channels = pack.index_at(pack::CHANNELS);
    let ordinals = tracks_of(object).map(|track| track.index_at(track::ORDINAL));
    object.list(object::TRACKS).count == channels
        && tracks_of(object).all(|track| track.index_at(track::PACK) == pack.index)
        && namings(channels, ordinals).iter().all(|&times| times == 1)
}

/// "An object that isn't top has complements, interact 1, sets, or any gain, offset or
/// range."
pub fn rule_15(sheet: Sheet) -> Option<Place> {
    let top = top_objects(sheet);
    let bad = |object: &Record| {
        !top[object.index]
            && (is_leader(object)
                || object.word(object::INTERACT) == 1
                || object.list(object::SETS).count > 0
                || object.values().has_any())
    };
    least(sheet.records(OBJECT).filter(bad))
}
