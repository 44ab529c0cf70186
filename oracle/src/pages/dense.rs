//! Pages that no editor lays, where edges, lines and ends coincide.

use super::UNIT;
use crate::desk::{Lists, Place};
use crate::random::Random;

/// Places on a coarse lattice, so that few coordinates are distinct.
struct Lattice {
    step: i64,
    size: i64,
}

impl Lattice {
    fn coordinate(&self, random: &mut Random) -> i64 {
        random.between(-self.size, self.size) * self.step
    }

    fn place(&self, random: &mut Random) -> Place {
        Place::new(self.coordinate(random), self.coordinate(random))
    }
}

pub fn dense(random: &mut Random) -> Lists {
    let lattice = Lattice {
        step: random.pick(&[1, 3, UNIT / 2, 5 * UNIT, 10 * UNIT, 20 * UNIT, 25 * UNIT]),
        size: random.between(1, 6),
    };
    let mut lists = Lists::default();
    for id in 1..=random.pick(&[0, 0, 1, 2, 3, 4, 6]) {
        let (a, b) = (lattice.place(random), lattice.place(random));
        let min = Place::new(a.x.min(b.x), a.y.min(b.y));
        let max = if random.percent(50) {
            min
        } else {
            Place::new(a.x.max(b.x), a.y.max(b.y))
        };
        lists.add_box(id, min, max);
    }
    add_ports(&mut lists, &lattice, random);
    add_nets(&mut lists, &lattice, 4, random);
    lists
}

/// Ports anywhere, with any directions.
fn add_ports(lists: &mut Lists, lattice: &Lattice, random: &mut Random) {
    for b in lists.boxes.clone() {
        for _ in 0..random.between(0, 3) {
            let at = match random.below(3) {
                0 => lattice.place(random),
                1 => b.min,
                _ => Place::new(b.max.x, b.min.y),
            };
            let directions = random.pick(&[0, 1, 2, 4, 8, 3, 12, 15, 15, 15]);
            lists.add_port(b.id, at, directions);
        }
    }
}

/// Nets of 0 to 5 ends, at ports or at lattice places, marked truly or not.
fn add_nets(lists: &mut Lists, lattice: &Lattice, most: i64, random: &mut Random) {
    for id in 1..=random.between(1, most) {
        lists.add_net(id);
        for _ in 0..random.pick(&[0, 1, 2, 2, 2, 3, 3, 4, 5]) {
            if !lists.ports.is_empty() && random.percent(50) {
                let at = lists.ports[random.below(lists.ports.len())].at;
                lists.add_end(id, at, i64::from(random.percent(80)));
            } else {
                let marked = random.percent(4);
                lists.add_end(id, lattice.place(random), i64::from(marked));
            }
        }
    }
}

/// Boxes in rows and columns whose padded edges are -2 to 4 steps apart.
pub fn tight(random: &mut Random) -> Lists {
    let mut lists = Lists::default();
    let (columns, rows) = (random.between(1, 3), random.between(1, 3));
    let xs = tight_edges(columns, random);
    let ys = tight_edges(rows, random);
    let mut id = 0;
    for &(y0, y1) in &ys {
        for &(x0, x1) in &xs {
            id += 1;
            let (dx, dy) = (random.pick(&[0, 0, 0, 1, 2]), random.pick(&[0, 0, 0, 1]));
            if random.percent(80) {
                lists.add_box(
                    id,
                    Place::new(x0 + dx, y0 + dy),
                    Place::new(x1 + dx, y1 + dy),
                );
            }
        }
    }
    let lattice = Lattice {
        step: random.pick(&[10 * UNIT, 11 * UNIT + 1]),
        size: 7,
    };
    add_ports(&mut lists, &lattice, random);
    add_nets(&mut lists, &lattice, 3, random);
    lists
}

fn tight_edges(count: i64, random: &mut Random) -> Vec<(i64, i64)> {
    let mut low = -30 * UNIT;
    (0..count)
        .map(|_| {
            let high = low + random.pick(&[0, 1, 5, 10 * UNIT, 20 * UNIT]);
            let edges = (low, high);
            low = high + 20 * UNIT + random.between(-2, 4);
            edges
        })
        .collect()
}

/// Upright and level bars across a page, some cut short, and nets from room to room.
pub fn bars(random: &mut Random) -> Lists {
    let room = 50 * UNIT;
    let (columns, rows) = (random.between(2, 6), random.between(2, 6));
    let mut lists = Lists::default();
    for column in 0..columns {
        let (from, to) = bar_span(rows - 1, random);
        let (min, max) = ((column * room, from * room), (column * room, to * room));
        lists.add_box(
            column + 1,
            Place::new(min.0, min.1),
            Place::new(max.0, max.1),
        );
    }
    for row in 0..rows {
        let (from, to) = bar_span(columns - 1, random);
        let (min, max) = ((from * room, row * room), (to * room, row * room));
        lists.add_box(
            row + 101,
            Place::new(min.0, min.1),
            Place::new(max.0, max.1),
        );
    }
    for b in lists.boxes.clone() {
        if random.percent(40) {
            let middle = Place::new((b.min.x + b.max.x) / 2, (b.min.y + b.max.y) / 2);
            lists.add_port(b.id, middle, random.pick(&[1, 2, 4, 8, 15]));
        }
    }
    let lattice = Lattice {
        step: room / 2,
        size: 2 * columns.min(rows) - 1,
    };
    add_nets(&mut lists, &lattice, 6, random);
    lists
}

fn bar_span(length: i64, random: &mut Random) -> (i64, i64) {
    if random.percent(60) {
        return (0, length);
    }
    let from = random.between(0, length - 1);
    (from, random.between(from, length))
}

/// Few records, with coordinates up to the ends of the range.
pub fn wide(random: &mut Random) -> Lists {
    const EDGE: i64 = 4_194_304;
    let coordinate = |random: &mut Random| match random.below(4) {
        0 => -EDGE + random.pick(&[0, 0, 1, 2_560]),
        1 => EDGE - random.pick(&[0, 0, 1, 2_560]),
        _ => random.between(-EDGE, EDGE),
    };
    let place = |random: &mut Random| Place::new(coordinate(random), coordinate(random));
    let mut lists = Lists::default();
    for id in 1..=random.between(0, 4) {
        let corner = place(random);
        let max = Place::new(
            (corner.x + random.between(0, EDGE)).min(EDGE),
            (corner.y + random.between(0, EDGE)).min(EDGE),
        );
        lists.add_box(65_536 - id, corner, max);
        lists.add_port(65_536 - id, corner, 5);
        lists.add_port(65_536 - id, max, 10);
    }
    for id in 1..=random.between(1, 4) {
        lists.add_net(id);
        for _ in 0..random.between(2, 4) {
            if !lists.ports.is_empty() && random.percent(50) {
                let at = lists.ports[random.below(lists.ports.len())].at;
                lists.add_end(id, at, 1);
            } else {
                lists.add_end(id, place(random), 0);
            }
        }
    }
    lists
}
