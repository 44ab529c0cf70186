//! Page texts, made from a seed: realistic ones, dense ones, ones at the limits, damaged ones.

mod damaged;
mod dense;
mod limits;
mod long_ids;
mod realistic;
mod samples;
mod short;

pub use damaged::malformations;
pub use limits::limits;
pub use realistic::realistic_of;
pub use samples::samples;
pub use short::{short, Numbers};

use crate::desk::{Lists, Place};
use crate::page_text;
use crate::random::Random;

const UNIT: i64 = 256;

/// A way to make pages.
#[derive(Debug, Clone, Copy, PartialEq, Eq)]
pub enum Kind {
    /// Boxes round a page, ports on their edges, nets to squares in the middle.
    Realistic,
    /// Two rows of boxes and nets across, so that wires share corridors.
    Crossing,
    /// A few coordinates, so that everything meets everything.
    Dense,
    /// Boxes whose padded edges meet, overlap or part by a few steps.
    Tight,
    /// Bars that part the page into rooms.
    Bars,
    /// Coordinates up to the ends of the range.
    Wide,
    /// A good text with a fault put in.
    Damaged,
    /// Ids past 65,535, that are alike in their low 16 bits.
    LongIds,
}

impl Kind {
    pub const ALL: [Self; 8] = [
        Self::Realistic,
        Self::Crossing,
        Self::Dense,
        Self::Tight,
        Self::Bars,
        Self::Wide,
        Self::Damaged,
        Self::LongIds,
    ];

    /// The kinds in the shares in which comparisons at scale take them.
    pub fn of_seed(seed: u64) -> Self {
        match seed % 20 {
            0..=4 => Self::Realistic,
            5..=7 => Self::Crossing,
            8..=13 => Self::Dense,
            14..=15 => Self::Tight,
            16 => Self::Bars,
            17 => Self::LongIds,
            18 => Self::Wide,
            _ => Self::Damaged,
        }
    }

    pub fn name(self) -> &'static str {
        match self {
            Self::Realistic => "realistic",
            Self::Crossing => "crossing",
            Self::Dense => "dense",
            Self::Tight => "tight",
            Self::Bars => "bars",
            Self::Wide => "wide",
            Self::Damaged => "damaged",
            Self::LongIds => "long-ids",
        }
    }
}

/// The page text of a kind and a seed.
pub fn page(kind: Kind, seed: u64) -> Vec<u8> {
    let random = &mut Random::new(seed);
    let lists = match kind {
        Kind::Realistic => realistic::realistic(random),
        Kind::Crossing => realistic::crossing(random),
        Kind::Dense => dense::dense(random),
        Kind::Tight => dense::tight(random),
        Kind::Bars => dense::bars(random),
        Kind::Wide => dense::wide(random),
        Kind::Damaged => return damaged::damaged(random),
        Kind::LongIds => long_ids::long_ids(random),
    };
    page_text::write(&lists).into_bytes()
}

/// A start and ends to search on a page: mostly places of the page, at times others.
pub fn searched(lists: &Lists, random: &mut Random) -> (Place, Vec<Place>) {
    let start = searched_place(lists, random);
    let count = random.pick(&[0, 1, 1, 1, 2, 3, 5]);
    let ends = (0..count).map(|_| searched_place(lists, random)).collect();
    (start, ends)
}

fn searched_place(lists: &Lists, random: &mut Random) -> Place {
    let ports = lists.ports.iter().map(|port| port.at);
    let ends = lists.ends.iter().map(|end| end.at);
    let places: Vec<_> = ports.chain(ends).collect();
    if places.is_empty() || random.percent(3) {
        return Place::new(
            random.between(-20, 20) * UNIT,
            random.between(-20, 20) * UNIT,
        );
    }
    if random.percent(8) {
        return Place::new(random.pick(&places).x, random.pick(&places).y);
    }
    random.pick(&places)
}
