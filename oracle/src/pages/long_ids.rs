//! Pages with ids past 65,535.

use super::{page, Kind};
use crate::desk::{Lists, IDS};
use crate::page_text;
use crate::random::Random;

/// The page of another kind, its ids renamed.
pub fn long_ids(random: &mut Random) -> Lists {
    let kind = random.pick(&[Kind::Realistic, Kind::Dense, Kind::Tight, Kind::Wide]);
    let seed = random.between(0, 1 << 40) as u64;
    renamed(page_text::read(&page(kind, seed)).expect("the page is good"))
}

/// The same page with other ids: the first is the greatest there is, and all are alike in their low
/// 16 bits.
pub fn renamed(mut lists: Lists) -> Lists {
    const APART: i64 = 65_536;
    let rename = |id: &mut i64| *id = IDS.end() - APART * (*id - 1);
    lists.boxes.iter_mut().for_each(|b| rename(&mut b.id));
    lists
        .ports
        .iter_mut()
        .for_each(|port| rename(&mut port.box_id));
    lists.nets.iter_mut().for_each(rename);
    lists
        .ends
        .iter_mut()
        .for_each(|end| rename(&mut end.net_id));
    lists
}
