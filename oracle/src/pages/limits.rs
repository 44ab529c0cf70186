//! Pages at each limit of document 01 and just past it.

use super::long_ids::renamed;
use super::UNIT;
use crate::desk::{Lists, Place, IDS};
use crate::page_text;

/// Where a box stands out of the way of everything.
const FAR: Place = Place::new(4_000_000, 4_000_000);
const ACROSS: i64 = 3;
const UP_AND_DOWN: i64 = 12;

/// The pages with their names.
pub fn limits() -> Vec<(String, Vec<u8>)> {
    let mut pages = Vec::new();
    let mut add = |name: &str, lists: &Lists| {
        pages.push((name.to_owned(), page_text::write(lists).into_bytes()));
    };
    add("boxes-64", &box_grid());
    add("records-640", &all_lists_full());
    add("ports-256", &port_grid());
    add("ends-256", &end_grid());
    add("anchors-2048", &rooms(16, 32));
    add("anchors-2050", &one_corridor_more(rooms(16, 32)));
    add("nodes-4096", &columns(64, 64));
    add("nodes-4097", &one_place_more(columns(64, 64)));
    add("vertices-512", &three_ended_nets(64, 0));
    add("vertices-past-512", &three_ended_nets(64, 64));
    add("vertices-net-passed-by", &three_ended_nets(64, 10));
    add("vertices-refused-net-frees-room", &refused_net_first());
    add("vertices-past-512-and-one-node-line", &over_then_one_node());
    add("net-ends-4096", &comb(63, 63));
    add("net-ends-4097", &comb(64, 63));
    add("edges-of-range", &edges_of_range(65_535));
    add("edges-of-range-long-ids", &edges_of_range(*IDS.end()));
    add("records-640-long-ids", &renamed(all_lists_full()));

    let overfull = [
        ("boxes-65", "box\t999\t0\t0\t0\t0\n"),
        ("ports-257", "port\t1\t0\t0\t0\n"),
        ("nets-65", "net\t999\n"),
        ("ends-257", "end\t1\t0\t0\t0\n"),
        ("box-live-and-list-full", "box\t1\t0\t0\t0\t0\n"),
        ("port-unknown-and-list-full", "port\t999\t0\t0\t0\n"),
        ("net-live-and-list-full", "net\t1\n"),
        ("end-unknown-and-list-full", "end\t999\t0\t0\t0\n"),
        ("line-641-malformed", "box\n"),
    ];
    for (name, line) in overfull {
        let text = page_text::write(&all_lists_full()) + line;
        pages.push((name.to_owned(), text.into_bytes()));
    }
    pages
}

fn units(x: i64, y: i64) -> Place {
    Place::new(x * UNIT, y * UNIT)
}

/// 64 boxes in 8 rows, 60 units wide and 100 apart.
fn box_grid() -> Lists {
    let mut lists = Lists::default();
    for id in 0..64 {
        let (x, y) = (100 * (id % 8), 100 * (id / 8));
        lists.add_box(id + 1, units(x, y), units(x + 60, y + 60));
    }
    lists.add_net(1);
    lists.add_end(1, units(-30, -30), 0);
    lists.add_end(1, units(380, 480), 0);
    lists
}

/// The box grid with a port on each side of each box, and a net of four ports for each box.
fn all_lists_full() -> Lists {
    let mut lists = box_grid();
    lists.nets.clear();
    lists.ends.clear();
    for b in lists.boxes.clone() {
        let middle = Place::new((b.min.x + b.max.x) / 2, (b.min.y + b.max.y) / 2);
        lists.add_port(b.id, Place::new(b.min.x, middle.y), 1);
        lists.add_port(b.id, Place::new(b.max.x, middle.y), 2);
        lists.add_port(b.id, Place::new(middle.x, b.min.y), 4);
        lists.add_port(b.id, Place::new(middle.x, b.max.y), 8);
    }
    for net in 0..64 {
        lists.add_net(net + 1);
        for end in 0..4 {
            let port = (4 * net + 53 * end + end) % 256;
            lists.add_end(net + 1, lists.ports[port as usize].at, 1);
        }
    }
    lists
}

/// A far box with 256 ports in a square, and nets between them.
fn port_grid() -> Lists {
    let mut lists = Lists::default();
    lists.add_box(1, FAR, FAR);
    for port in 0..256 {
        let directions = [15, ACROSS, UP_AND_DOWN, 0][port as usize % 4];
        lists.add_port(1, units(20 * (port % 16), 20 * (port / 16)), directions);
    }
    for net in 0..16 {
        lists.add_net(net + 1);
        lists.add_end(net + 1, lists.ports[net as usize].at, 1);
        lists.add_end(net + 1, lists.ports[255 - 7 * net as usize].at, 1);
    }
    lists
}

/// 64 nets of four unported ends each.
fn end_grid() -> Lists {
    let mut lists = Lists::default();
    for net in 0..64 {
        lists.add_net(net + 1);
        for end in 0..4 {
            let place = (net * 5 + end * 67) % 256;
            lists.add_end(net + 1, units(30 * (place % 16), 30 * (place / 16)), 0);
        }
    }
    lists
}

/// Bars that leave `columns` times `rows` rooms, each with four implicit anchors of its own.
fn rooms(columns: i64, rows: i64) -> Lists {
    let (width, height) = (100 * columns, 100 * rows);
    let mut lists = Lists::default();
    for column in 0..=columns {
        let x = 100 * column;
        lists.add_box(column + 1, units(x, 0), units(x, height));
    }
    for row in 0..=rows {
        let y = 100 * row;
        lists.add_box(row + 101, units(0, y), units(width, y));
    }
    lists.add_net(1);
    lists.add_end(1, units(50, 50), 0);
    lists.add_end(1, units(55, 45), 0);
    lists
}

/// Two boxes in corners of the first room give it three corridors more, one that fills the second
/// room takes two away: two anchors more in all.
fn one_corridor_more(mut lists: Lists) -> Lists {
    lists.add_box(201, units(20, 20), units(20, 20));
    lists.add_box(202, units(80, 20), units(80, 20));
    lists.add_box(203, units(120, 20), units(180, 80));
    lists
}

/// Upright lines through each of `width` ports, with nodes at `height` levels.
fn columns(width: i64, height: i64) -> Lists {
    let mut lists = Lists::default();
    lists.add_box(1, FAR, FAR);
    for column in 0..width {
        let level = column * height / width;
        lists.add_port(1, units(7 * column, 9 * level), UP_AND_DOWN);
    }
    lists.add_net(1);
    lists.add_end(1, lists.ports[0].at, 1);
    lists.add_end(1, lists.ports[5].at, 1);
    lists
}

/// A port that no line leaves, at a new x and a known y.
fn one_place_more(mut lists: Lists) -> Lists {
    lists.add_port(1, units(-7, 0), 0);
    lists
}

/// Nets of 8 vertices each: a level root wire and a branch from above. The first `longer` nets
/// have a fourth end and so 4 vertices more.
fn three_ended_nets(count: i64, longer: i64) -> Lists {
    let mut lists = Lists::default();
    for net in 0..count {
        let y = 40 * net;
        lists.add_net(net + 1);
        lists.add_end(net + 1, units(0, y), 0);
        lists.add_end(net + 1, units(1000, y), 0);
        lists.add_end(net + 1, units(500, y + 10), 0);
        if net < longer {
            lists.add_end(net + 1, units(600, y + 10), 0);
        }
    }
    lists
}

/// A net of 14 comes first; the other 63 and one more branch then make 512 vertices.
fn refused_net_first() -> Lists {
    let mut lists = three_ended_nets(64, 3);
    lists.ends.remove(2);
    lists.ends.insert(2, lists.ends[0].clone());
    lists
}

/// The last net passes 512 vertices with its first branch and meets a one-node line after it.
fn over_then_one_node() -> Lists {
    let mut lists = three_ended_nets(64, 1);
    let last = lists.ends.len() - 3;
    let start = lists.ends[last].clone();
    lists.ends.push(start);
    lists
}

/// A level root wire of `width` nodes and 63 teeth of `height` nodes: in all `width` + 1 +
/// 63 × (`height` + 1) ends.
fn comb(width: i64, height: i64) -> Lists {
    let (pitch, top) = (500, 5 * (height - 1));
    let mut lists = Lists::default();
    lists.add_box(1, FAR, FAR);
    for level in 1..height - 1 {
        lists.add_port(1, units(-16_000, 5 * level), ACROSS);
    }
    lists.add_net(1);
    lists.add_end(1, units(-16_000, 0), 0);
    lists.add_end(1, units(-16_000 + pitch * (width - 1), 0), 0);
    for tooth in 0..63 {
        lists.add_end(1, units(-16_000 + pitch * tooth, top), 0);
    }
    lists
}

/// A box over the whole range and ends in its corners.
fn edges_of_range(id: i64) -> Lists {
    const EDGE: i64 = 4_194_304;
    let (min, max) = (Place::new(-EDGE, -EDGE), Place::new(EDGE, EDGE));
    let mut lists = Lists::default();
    lists.add_box(id, min, max);
    lists.add_port(id, min, 15);
    lists.add_port(id, max, 15);
    lists.add_net(id);
    lists.add_end(id, min, 1);
    lists.add_end(id, max, 1);
    lists.add_net(1);
    lists.add_end(1, Place::new(-EDGE, EDGE), 0);
    lists.add_end(1, Place::new(EDGE, -EDGE), 0);
    lists
}
