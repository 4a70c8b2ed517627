//! Rules 7, 8, 10, 23 and 24: the level limits.

use super::{header_if, least};
use crate::second::limits::{exceeds, Limit};
use crate::second::terms::{groups, single_objects, size, KIND_DIRECT_SPEAKERS, KIND_OBJECTS};
use crate::second::view::{
    content, object, pack, programme, Place, Record, Sheet, CONTENT, OBJECT, PACK, PROGRAMME, TRACK,
};

/// "A section's count is outside its limits (for section 4, kind 3 only)."
pub fn rule_7(sheet: Sheet) -> Option<Place> {
    let packs_of_kind_3 =
        sheet.records(PACK).filter(|pack| pack.word(pack::KIND) == KIND_OBJECTS).count();
    // "Minimum 1 for all but packs."
    let counts = [
        (PROGRAMME, sheet.count(PROGRAMME), 1, Limit::Programmes),
        (CONTENT, sheet.count(CONTENT), 1, Limit::Contents),
        (OBJECT, sheet.count(OBJECT), 1, Limit::Objects),
        (PACK, packs_of_kind_3, 0, Limit::PacksOfKind3),
        (TRACK, sheet.count(TRACK), 1, Limit::Tracks),
    ];
    counts
        .into_iter()
        .filter(|&(_, count, minimum, limit)| {
            count < minimum || exceeds(count, limit, sheet.level())
        })
        .map(|(section, ..)| Place::section(section))
        .min()
}

/// "A record's list or span is outside its limits."
pub fn rule_8(sheet: Sheet) -> Option<Place> {
    let exceeds_in =
        |record: &Record, field, limit| exceeds(record.list(field).count, limit, sheet.level());
    let programmes = sheet.records(PROGRAMME).filter(|programme| {
        programme.list(programme::CONTENTS).count < 1
            || exceeds_in(programme, programme::CONTENTS, Limit::ProgrammeContents)
            || exceeds_in(programme, programme::SETS, Limit::ProgrammeSets)
            || exceeds_in(programme, programme::LABELS, Limit::Labels)
    });
    let contents = sheet
        .records(CONTENT)
        .filter(|content| exceeds_in(content, content::LABELS, Limit::Labels));
    let objects = sheet.records(OBJECT).filter(|object| {
        exceeds_in(object, object::CHILDREN, Limit::Children)
            || exceeds_in(object, object::COMPLEMENTS, Limit::Complements)
            || exceeds_in(object, object::SETS, Limit::SetSpan)
    });
    least(programmes.chain(contents).chain(objects))
}

/// "A pack of kind 3 hasn't 1 channel, or one of kind 1 has 0 or too many."
pub fn rule_10(sheet: Sheet) -> Option<Place> {
    let bad_channels = |pack: &Record| {
        let channels = pack.index_at(pack::CHANNELS);
        match pack.word(pack::KIND) {
            KIND_OBJECTS => channels != 1,
            KIND_DIRECT_SPEAKERS => {
                channels == 0 || exceeds(channels, Limit::Channels, sheet.level())
            }
            _ => false,
        }
    };
    least(sheet.records(PACK).filter(bad_channels))
}

/// "The header: one of the two group limits is exceeded."
pub fn rule_23(sheet: Sheet) -> Option<Place> {
    let groups = groups(sheet).len();
    let single = single_objects(sheet).len();
    header_if(
        exceeds(groups, Limit::Groups, sheet.level())
            || exceeds(groups + single, Limit::GroupsAndSingleObjects, sheet.level()),
    )
}

/// "The header: counted tracks exceed their limit."
pub fn rule_24(sheet: Sheet) -> Option<Place> {
    header_if(exceeds(counted_tracks(sheet), Limit::CountedTracks, sheet.level()))
}

/// "For each group the largest member, plus every top object in no group."
fn counted_tracks(sheet: Sheet) -> usize {
    let size_of = |object: usize| size(&sheet.record(OBJECT, object));
    let largest = |group: Vec<usize>| group.into_iter().map(size_of).max().unwrap_or(0);
    let in_groups: usize = groups(sheet).into_iter().map(largest).sum();
    let in_no_group: usize = single_objects(sheet).into_iter().map(size_of).sum();
    in_groups + in_no_group
}
