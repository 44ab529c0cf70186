//! Pages as an editor lays them: clue boxes at the sides, squares between them.

use super::UNIT;
use crate::desk::{ClueBox, Lists, Place};
use crate::random::Random;

const GRID: i64 = 10 * UNIT;
const NEG_X: i64 = 1;
const POS_X: i64 = 2;
const NEG_Y: i64 = 4;
const POS_Y: i64 = 8;

pub fn realistic(random: &mut Random) -> Lists {
    let mut lists = Lists::default();
    let squares = (random.between(6, 12), random.between(6, 14));
    add_boxes_round(&mut lists, squares, random);
    with_nets(lists, squares, random)
}

/// A realistic page of that many boxes, on a field of squares that grows with them.
pub fn realistic_of(boxes: usize, random: &mut Random) -> Lists {
    let side = boxes as i64;
    loop {
        let squares = (
            random.between(side, side + side / 2),
            random.between(side, side + side / 2),
        );
        let mut lists = Lists::default();
        add_boxes_round(&mut lists, squares, random);
        if lists.boxes.len() == boxes {
            return with_nets(lists, squares, random);
        }
    }
}

/// Ports on the boxes, and nets from them to squares.
fn with_nets(mut lists: Lists, squares: (i64, i64), random: &mut Random) -> Lists {
    for b in lists.boxes.clone() {
        for _ in 0..random.between(1, 3) {
            add_port_on_edge(&mut lists, &b, random);
        }
    }
    for id in 1..=random.between(2, 7) {
        add_net(&mut lists, id, squares, random);
    }
    lists
}

/// Boxes above, below, left and right of a field of squares 4 grid steps wide.
fn add_boxes_round(lists: &mut Lists, (columns, rows): (i64, i64), random: &mut Random) {
    let (width, height) = (4 * columns, 4 * rows);
    let mut id = 0;
    for side in 0..4 {
        let length = if side < 2 { width } else { height };
        let mut along = random.between(0, 6);
        while along < length {
            let (size, depth) = (random.between(4, 12), random.between(3, 6));
            let out = random.between(3, 5);
            let (x, y, w, h) = match side {
                0 => (along, -out - depth, size, depth),
                1 => (along, height + out, size, depth),
                2 => (-out - depth, along, depth, size),
                _ => (width + out, along, depth, size),
            };
            id += 1;
            let min = Place::new(x * GRID, y * GRID);
            let max = Place::new((x + w) * GRID, (y + h) * GRID);
            if random.percent(70) {
                lists.add_box(id, min, max);
            }
            along += size + random.between(3, 8);
        }
    }
}

/// A port on an edge of a box, looking outward.
fn add_port_on_edge(lists: &mut Lists, b: &ClueBox, random: &mut Random) {
    let x = b.min.x + random.between(1, (b.max.x - b.min.x) / GRID - 1) * GRID;
    let y = b.min.y + random.between(1, (b.max.y - b.min.y) / GRID - 1) * GRID;
    let (at, directions) = match random.below(4) {
        0 => (Place::new(b.min.x, y), NEG_X),
        1 => (Place::new(b.max.x, y), POS_X),
        2 => (Place::new(x, b.min.y), NEG_Y),
        _ => (Place::new(x, b.max.y), POS_Y),
    };
    lists.add_port(b.id, at, directions);
}

/// A net from ports to squares, 2 to 6 ends.
fn add_net(lists: &mut Lists, id: i64, (columns, rows): (i64, i64), random: &mut Random) {
    lists.add_net(id);
    for end in 0..random.pick(&[2, 2, 2, 3, 3, 4, 5, 6]) {
        if !lists.ports.is_empty() && (end == 0 || random.percent(40)) {
            let at = lists.ports[random.below(lists.ports.len())].at;
            lists.add_end(id, at, 1);
        } else {
            let x = (4 * random.between(0, columns - 1) + 2) * GRID;
            let y = (4 * random.between(0, rows - 1) + 2) * GRID;
            lists.add_end(id, Place::new(x, y), 0);
        }
    }
}

/// Two facing columns (or rows) of boxes; each net joins both sides, some with a branch.
pub fn crossing(random: &mut Random) -> Lists {
    let turned = random.percent(50);
    let count = random.between(2, 7) as usize;
    let gap = random.between(8, 30);
    let mut lists = Lists::default();
    let mut sides = [Vec::new(), Vec::new()];
    for (side, places) in sides.iter_mut().enumerate() {
        for row in 0..count as i64 {
            places.push(add_facing_box(&mut lists, side, row, gap, turned, random));
        }
        random.shuffle(places);
    }
    for (row, (&left, &right)) in sides[0].iter().zip(&sides[1]).enumerate() {
        let id = row as i64 + 1;
        lists.add_net(id);
        lists.add_end(id, left, 1);
        lists.add_end(id, right, 1);
        if random.percent(40) {
            let along = random.between(1, gap - 1) * GRID;
            let across = random.between(0, 8 * count as i64) * GRID;
            lists.add_end(id, turn(Place::new(along, across), turned), 0);
        }
    }
    lists
}

/// A box with one port that looks to the other side; answers with the port's place.
fn add_facing_box(
    lists: &mut Lists,
    side: usize,
    row: i64,
    gap: i64,
    turned: bool,
    random: &mut Random,
) -> Place {
    let id = 100 * side as i64 + row + 1;
    let across = 8 * row * GRID + random.between(0, 1) * 2 * GRID;
    let (near, far, direction) = match side {
        0 => (0, -6 * GRID, if turned { POS_Y } else { POS_X }),
        _ => (
            gap * GRID,
            (gap + 6) * GRID,
            if turned { NEG_Y } else { NEG_X },
        ),
    };
    let min = turn(Place::new(near.min(far), across), turned);
    let max = turn(Place::new(near.max(far), across + 4 * GRID), turned);
    let port = turn(Place::new(near, across + 2 * GRID), turned);
    lists.add_box(id, min, max);
    lists.add_port(id, port, direction);
    port
}

fn turn(place: Place, turned: bool) -> Place {
    if turned {
        Place::new(place.y, place.x)
    } else {
        place
    }
}
