//! Rule 24: "each group's (under its leader) and lone object's share by rising record".

use super::Figure;
use crate::second::terms::{groups, single_objects, size};
use crate::second::view::{Sheet, OBJECT};

/// What each group and each top object in no group adds to the counted tracks: "for each group
/// the largest member, plus every top object in no group" (document 01).
pub fn shares(sheet: Sheet) -> Vec<Figure> {
    let size_of = |object: usize| size(&sheet.record(OBJECT, object));
    let of_group = |group: Vec<usize>| {
        let largest = group.iter().map(|&member| size_of(member)).max();
        (group[0], largest.unwrap_or(0))
    };
    let of_groups = groups(sheet).into_iter().map(of_group);
    let of_lone = single_objects(sheet).into_iter().map(|object| (object, size_of(object)));
    let mut shares: Vec<(usize, usize)> = of_groups.chain(of_lone).collect();
    shares.sort();
    let figure = |(object, share)| Figure::of_number(&sheet.record(OBJECT, object), share as i32);
    shares.into_iter().map(figure).collect()
}
