//! Rules 7, 8, 10, 23 and 24: the level limits. Level 0 has no maximum, so most of them
//! have nothing to ask there.

use super::lists::Totals;
use super::sections::{has_children, is_leader, list, word, Content, Object, Programme, Sections};
use super::tables::{Tables, TOP};
use super::{at, at_section};
use crate::second::limits::{exceeds, Limit};
use crate::second::terms::KIND_OBJECTS;
use crate::second::view::{
    content, object, pack, programme, CONTENT, HEADER, OBJECT, PACK, PROGRAMME, TRACK,
};
use crate::second::Verdict;

pub fn rule_7(sheet: &Sections) -> Result<(), Verdict> {
    let outside = |count, limit| count < 1 || exceeds(count, limit, sheet.level);
    at_section(7, PROGRAMME, outside(sheet.programmes.len(), Limit::Programmes))?;
    at_section(7, CONTENT, outside(sheet.contents.len(), Limit::Contents))?;
    at_section(7, OBJECT, outside(sheet.objects.len(), Limit::Objects))?;
    at_section(7, PACK, sheet.level > 0 && has_too_many_packs(sheet))?;
    at_section(7, TRACK, outside(sheet.tracks.len(), Limit::Tracks))
}

fn has_too_many_packs(sheet: &Sections) -> bool {
    let of_kind_3 = sheet.packs.iter().filter(|pack| word(pack, pack::KIND) == KIND_OBJECTS);
    exceeds(of_kind_3.count(), Limit::PacksOfKind3, sheet.level)
}

pub fn rule_8(sheet: &Sections) -> Result<(), Verdict> {
    let without_content = |programme: &Programme| list(programme, programme::CONTENTS).count < 1;
    if sheet.level == 0 {
        return at(8, PROGRAMME, sheet.programmes.iter().position(without_content));
    }
    let long = |count, limit| exceeds(count, limit, sheet.level);
    let programme = |programme: &Programme| {
        without_content(programme)
            || long(list(programme, programme::CONTENTS).count, Limit::ProgrammeContents)
            || long(list(programme, programme::SETS).count, Limit::ProgrammeSets)
            || long(list(programme, programme::LABELS).count, Limit::Labels)
    };
    let content = |content: &Content| long(list(content, content::LABELS).count, Limit::Labels);
    let object = |object: &Object| {
        long(list(object, object::CHILDREN).count, Limit::Children)
            || long(list(object, object::COMPLEMENTS).count, Limit::Complements)
            || long(list(object, object::SETS).count, Limit::SetSpan)
    };
    at(8, PROGRAMME, sheet.programmes.iter().position(programme))?;
    at(8, CONTENT, sheet.contents.iter().position(content))?;
    at(8, OBJECT, sheet.objects.iter().position(object))
}

pub fn rule_10(sheet: &Sections) -> Result<(), Verdict> {
    let bad_channels = |pack| {
        let channels = usize::from(word(pack, pack::CHANNELS));
        match word(pack, pack::KIND) {
            KIND_OBJECTS => channels != 1,
            _ => channels == 0 || exceeds(channels, Limit::Channels, sheet.level),
        }
    };
    at(10, PACK, sheet.packs.iter().position(bad_channels))
}

/// Every content names a top object of its own (rule 11), and every object in a group is
/// top and in one group only (15, 19): the single objects need no search.
pub fn rule_23(sheet: &Sections, totals: &Totals) -> Result<(), Verdict> {
    if sheet.level == 0 {
        return Ok(());
    }
    let groups = sheet.objects.iter().filter(|object| is_leader(object)).count();
    let groups_and_single_objects = sheet.contents.len() - totals.complements;
    let exceeded = exceeds(groups, Limit::Groups, sheet.level)
        || exceeds(groups_and_single_objects, Limit::GroupsAndSingleObjects, sheet.level);
    at_section(23, HEADER, exceeded)
}

pub fn rule_24(sheet: &Sections, tables: &Tables) -> Result<(), Verdict> {
    if sheet.level == 0 {
        return Ok(());
    }
    let counted = |(number, object): (usize, &Object)| match tables.leaders[number] {
        0 if tables.names[number] == TOP => size(sheet, object),
        leader if leader as usize == number + 1 => largest_member(sheet, object),
        _ => 0,
    };
    let tracks = sheet.objects.iter().enumerate().map(counted).sum();
    at_section(24, HEADER, exceeds(tracks, Limit::CountedTracks, sheet.level))
}

fn largest_member(sheet: &Sections, leader: &Object) -> usize {
    let complements = sheet.entries(list(leader, object::COMPLEMENTS));
    let sizes = complements.map(|member| size(sheet, &sheet.objects[member]));
    sizes.fold(size(sheet, leader), usize::max)
}

fn size(sheet: &Sections, object: &Object) -> usize {
    let tracks = |object| list(object, object::TRACKS).count;
    if !has_children(object) {
        return tracks(object);
    }
    let children = sheet.entries(list(object, object::CHILDREN));
    children.map(|child| tracks(&sheet.objects[child])).sum()
}
