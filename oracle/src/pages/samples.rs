//! Document 01's own pages, pages for rules that generated ones hardly meet, and small pages whose
//! wires a reader may not expect.

use super::UNIT;
use crate::desk::{Lists, Place};
use crate::page_text;

const NEG_X: i64 = 1;
const POS_X: i64 = 2;
const POS_Y: i64 = 8;
const Y: i64 = 12;

/// A far box's port: place in units, directions.
type Port = (i64, i64, i64);
/// An end: place in units, mark.
type End = (i64, i64, i64);

/// The pages with their names.
pub fn samples() -> Vec<(String, Vec<u8>)> {
    let stored = |&(name, text): &(&str, &str)| (name.to_owned(), text.as_bytes().to_vec());
    let written = |name: &str, lists: Lists| (name.to_owned(), page_text::write(&lists).into());
    let rare = [
        written("corridor-order", corridor_order()),
        written("corridor-order-turned", turned(corridor_order())),
        written("horizontal-first", horizontal_first()),
        written("horizontal-first-turned", turned(horizontal_first())),
        written("extent-two-down", extent_two_down()),
        written("extent-two-down-turned", turned(extent_two_down())),
        written("start-stays", start_stays()),
        written("start-stays-turned", turned(start_stays())),
        written("endpoint-pruned", endpoint_pruned()),
    ];
    let document_01 = DOCUMENT_01.iter().map(stored);
    document_01
        .chain(rare)
        .chain(FINDINGS.iter().map(stored))
        .collect()
}

const DOCUMENT_01: [(&str, &str); 8] = [
    ("empty", ""),
    ("sample", "net\t1\nend\t1\t0\t0\t0\nend\t1\t2560\t5120\t0\n"),
    (
        "two-boxes",
        "box\t1\t0\t0\t5120\t5120\nbox\t2\t25600\t0\t30720\t5120\n",
    ),
    (
        "one-box-three-ports",
        "box\t1\t256000\t256000\t256000\t256000\n\
         port\t1\t0\t0\t2\nport\t1\t5120\t0\t1\nport\t1\t2560\t10240\t0\n",
    ),
    (
        "three-in-a-row",
        "net\t1\nend\t1\t0\t0\t0\nend\t1\t5120\t0\t0\nend\t1\t2560\t0\t0\n",
    ),
    (
        "root-pair",
        "net\t1\nend\t1\t0\t0\t0\nend\t1\t7680\t7680\t0\nend\t1\t2560\t0\t0\n",
    ),
    (
        "padded-edge",
        "box\t1\t25600\t0\t25600\t0\nnet\t1\nend\t1\t0\t0\t0\nend\t1\t23040\t0\t0\n",
    ),
    (
        "one-step-before-the-padded-edge",
        "box\t1\t25600\t0\t25600\t0\nnet\t1\nend\t1\t0\t0\t0\nend\t1\t23039\t0\t0\n",
    ),
];

/// The pages of docs/DIFFERENCES.md's findings; no line of them can be left out.
const FINDINGS: [(&str, &str); 5] = [
    (
        "branch-left-behind",
        "box\t1\t3840\t2560\t3840\t2560\nport\t1\t0\t1280\t1\n\
         net\t1\nend\t1\t0\t0\t0\nend\t1\t1280\t7680\t0\nend\t1\t3840\t2560\t0\n",
    ),
    (
        "found-branch-left-behind",
        "net\t1\nend\t1\t0\t0\t0\nend\t1\t3840\t1280\t0\nend\t1\t640\t2560\t0\n\
         net\t2\nend\t2\t1280\t-1280\t0\nend\t2\t0\t640\t0\n",
    ),
    (
        "nets-share-a-stretch",
        "net\t1\nend\t1\t0\t0\t0\nend\t1\t2560\t0\t0\n\
         net\t2\nend\t2\t1280\t0\t0\nend\t2\t3840\t0\t0\n",
    ),
    (
        "nets-share-a-stretch-only-after",
        "net\t1\nend\t1\t-1280\t0\t0\nend\t1\t0\t-1280\t0\n\
         net\t2\nend\t2\t1280\t0\t0\nend\t2\t0\t1280\t0\n",
    ),
    (
        "fallback-through-a-box",
        "box\t1\t0\t0\t2560\t2560\nport\t1\t1280\t0\t4\n\
         net\t1\nend\t1\t1280\t0\t1\nend\t1\t1280\t5120\t0\n",
    ),
];

fn place(x: i64, y: i64) -> Place {
    Place::new(x * UNIT, y * UNIT)
}

/// A page with one far box, whose ports may stand anywhere.
fn page(ports: &[Port], nets: &[&[End]]) -> Lists {
    let mut lists = Lists::default();
    lists.add_box(1, place(15_000, 15_000), place(15_000, 15_000));
    for &(x, y, directions) in ports {
        lists.add_port(1, place(x, y), directions);
    }
    for (id, ends) in (1..).zip(nets) {
        lists.add_net(id);
        for &(x, y, mark) in *ends {
            lists.add_end(id, place(x, y), mark);
        }
    }
    lists
}

/// The page with x and y exchanged.
fn turned(mut lists: Lists) -> Lists {
    let turn = |place: &mut Place| *place = Place::new(place.y, place.x);
    for b in &mut lists.boxes {
        turn(&mut b.min);
        turn(&mut b.max);
    }
    for port in &mut lists.ports {
        turn(&mut port.at);
        port.directions = port.directions / 4 + port.directions % 4 * 4;
    }
    for end in &mut lists.ends {
        turn(&mut end.at);
    }
    lists
}

/// The branch's last corner is moved from y = -5 to the height of its junction at y = 0, and the
/// junction from there: what becomes of the corner depends on which corridor goes first.
fn corridor_order() -> Lists {
    page(
        &[
            (90, 0, POS_X),
            (150, -5, NEG_X),
            (120, -5, NEG_X),
            (95, 0, POS_X),
        ],
        &[
            &[(90, 0, 1), (100, 1000, 0), (150, -5, 1)],
            &[(120, -5, 1), (110, -100, 0)],
            &[(95, 0, 1), (98, 500, 0)],
        ],
    )
}

/// The branch's last corner is moved to the height of its junction, and then the junction
/// sideways: with vertical corridors first the corner would go along.
fn horizontal_first() -> Lists {
    page(
        &[
            (90, 0, POS_X),
            (115, 1000, NEG_X),
            (150, -5, NEG_X),
            (120, -5, 0),
            (110, -100, 0),
            (105, 300, NEG_X),
            (100, 310, Y),
        ],
        &[
            &[(90, 0, 1), (115, 1000, 1), (150, -5, 1)],
            &[(120, -5, 1), (110, -100, 1)],
            &[(105, 300, 1), (100, 310, 1)],
        ],
    )
}

/// A branch on the corner of a branch on the root wire's corner, all level; the other net's wire
/// is near the second branch only.
fn extent_two_down() -> Lists {
    page(
        &[
            (0, 0, POS_X),
            (100, -9000, POS_Y),
            (150, -60, POS_Y),
            (250, -60, POS_Y),
            (200, 0, POS_X),
            (210, -300, POS_Y),
        ],
        &[
            &[(0, 0, 1), (100, -9000, 1), (150, -60, 1), (250, -60, 1)],
            &[(200, 0, 1), (210, -300, 1)],
        ],
    )
}

/// A box cuts the third endpoint off, so that its wire is a fallback of two vertices on a corner;
/// the corner moves, and the start of that wire may not.
fn start_stays() -> Lists {
    let mut lists = page(
        &[
            (0, 0, POS_X),
            (100, -9000, POS_Y),
            (300, 0, 0),
            (50, 0, POS_X),
            (60, -300, POS_Y),
        ],
        &[
            &[(0, 0, 1), (100, -9000, 1), (300, 0, 1)],
            &[(50, 0, 1), (60, -300, 1)],
        ],
    );
    lists.add_box(2, place(200, -3), place(200, 7));
    lists
}

/// A marked end without a port, at a crossing that pruning takes away.
fn endpoint_pruned() -> Lists {
    page(
        &[(0, 0, POS_X), (20, 0, NEG_X), (10, 40, 0)],
        &[&[(0, 0, 1), (10, 0, 1)]],
    )
}
