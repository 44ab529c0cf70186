//! The pages that are timed. On all of them the Rust goes through: no net gets 14 (it panics) or 15
//! (it goes past the limit).

use oracle::desk::{Lists, Place};
use oracle::pages::{self, Kind};
use oracle::random::Random;
use oracle::{layer, page_text};

const ONE_NODE_LINE: u32 = 14;
const OVER_LIMIT: u32 = 15;

/// Pages of a kind and size.
const REALISTIC: usize = 8;
const OTHERS: usize = 12;

const LIMITS: [&str; 8] = [
    "boxes-64",
    "records-640",
    "ports-256",
    "ends-256",
    "anchors-2048",
    "nodes-4096",
    "vertices-512",
    "net-ends-4096",
];

/// Boxes and nets of the grids.
pub const GROWTH: [(usize, usize); 13] = [
    (1, 4),
    (4, 4),
    (9, 4),
    (16, 4),
    (25, 4),
    (36, 4),
    (49, 4),
    (64, 4),
    (16, 1),
    (16, 8),
    (16, 16),
    (16, 32),
    (16, 48),
];

pub struct Set {
    pub name: String,
    pub pages: Vec<Lists>,
}

fn read(text: &[u8]) -> Lists {
    page_text::read(text).expect("the page is good")
}

/// Whether the Rust goes through, with a wire at least.
fn is_fit(lists: &Lists) -> bool {
    let Ok(layout) = layer::lay_out(lists, true, true) else {
        return false;
    };
    let past = [ONE_NODE_LINE, OVER_LIMIT];
    let goes_through = !layout.answers.iter().any(|answer| past.contains(answer));
    goes_through && layout.answers.contains(&0)
}

/// The first fit pages of rising seeds.
fn fit(count: usize, page: impl Fn(u64) -> Lists) -> Vec<Lists> {
    (0..).map(page).filter(is_fit).take(count).collect()
}

pub fn sets() -> Vec<Set> {
    let mut sets = Vec::new();
    for boxes in [5, 10, 15, 20] {
        sets.push(Set {
            name: format!("realistic, {boxes} boxes"),
            pages: fit(REALISTIC, |seed| {
                pages::realistic_of(boxes, &mut Random::new(seed))
            }),
        });
    }
    for kind in [Kind::Crossing, Kind::Dense, Kind::Bars] {
        sets.push(Set {
            name: kind.name().to_owned(),
            pages: fit(OTHERS, |seed| read(&pages::page(kind, seed))),
        });
    }
    let limits = pages::limits();
    for name in LIMITS {
        let (_, text) = limits
            .iter()
            .find(|page| page.0 == name)
            .expect("it is there");
        sets.push(Set {
            name: name.to_owned(),
            pages: vec![read(text)],
        });
    }
    sets
}

/// The page with all lists full.
pub fn full() -> Lists {
    let page = pages::limits()
        .into_iter()
        .find(|page| page.0 == "records-640");
    read(&page.expect("it is there").1)
}

/// The first two ends of the first net that has two.
pub fn searched(lists: &Lists) -> (Place, Place) {
    let ends = |net| lists.ends.iter().filter(move |end| end.net_id == net);
    let net = lists.nets.iter().find(|&&net| ends(net).count() >= 2);
    let mut places = ends(*net.expect("a net has two ends")).map(|end| end.at);
    let (start, end) = (places.next(), places.next());
    (start.expect("it is there"), end.expect("it is there"))
}

/// Boxes in a square, a port on each of their sides, and nets of three ports.
pub fn grid(boxes: usize, nets: usize) -> Lists {
    let page = |seed| {
        let random = &mut Random::new(seed);
        let mut lists = Lists::default();
        add_grid(&mut lists, boxes as i64);
        for net in 1..=nets as i64 {
            lists.add_net(net);
            for _ in 0..3 {
                let port = random.below(lists.ports.len());
                lists.add_end(net, lists.ports[port].at, 1);
            }
        }
        lists
    };
    fit(1, page).swap_remove(0)
}

fn add_grid(lists: &mut Lists, boxes: i64) {
    const UNIT: i64 = 256;
    let columns = (1..)
        .find(|side| side * side >= boxes)
        .expect("there is one");
    for id in 0..boxes {
        let (x, y) = (100 * UNIT * (id % columns), 100 * UNIT * (id / columns));
        let (size, middle) = (60 * UNIT, 30 * UNIT);
        lists.add_box(id + 1, Place::new(x, y), Place::new(x + size, y + size));
        lists.add_port(id + 1, Place::new(x, y + middle), 1);
        lists.add_port(id + 1, Place::new(x + size, y + middle), 2);
        lists.add_port(id + 1, Place::new(x + middle, y), 4);
        lists.add_port(id + 1, Place::new(x + middle, y + size), 8);
    }
}
