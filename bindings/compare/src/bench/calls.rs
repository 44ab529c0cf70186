//! Calls on an empty desk and on full ones; the Rust has none.

use crate::timing::{alone, microseconds};
use crate::{desk_of, pages};
use clue_desk::{Desk, Place, Refusal, Router, COPIES};
use oracle::desk::Lists;
use std::cell::RefCell;
use std::hint::black_box;

struct Desks {
    empty: Desk,
    full: Desk,
    worst: Desk,
    samples: usize,
}

impl Desks {
    fn time(&self, desk: &Desk, call: impl Fn(&mut Desk)) -> String {
        let mut desk = desk.clone();
        microseconds(alone(self.samples, || call(&mut desk)))
    }

    /// A line of a table: the call on the empty and on the full desk.
    fn line(&self, name: &str, call: impl Fn(&mut Desk)) {
        let [empty, full] = [&self.empty, &self.full].map(|desk| self.time(desk, &call));
        println!("| {name} | {empty} | {full} |");
    }

    /// The same, and on the worst desk.
    fn change_line(&self, name: &str, call: impl Fn(&mut Desk)) {
        let desks = [&self.empty, &self.full, &self.worst];
        let [empty, full, worst] = desks.map(|desk| self.time(desk, &call));
        println!("| {name} | {empty} | {full} | {worst} |");
    }
}

pub fn print(samples: usize) {
    let desks = Desks {
        empty: Desk::new(),
        full: full_desk(),
        worst: worst_desk(),
        samples: 10 * samples,
    };
    println!("Changes of a desk, in µs. Full: all lists at their limits and 32 undo entries. Worst: the same, every port and end belongs to the last box and net, and half of the entries bring an end back before all others.\n");
    println!("| call | empty desk | full desk | worst desk |");
    println!("|---|---|---|---|");
    print_changes(&desks);
    println!("\nOther calls on a desk, in µs a call.\n");
    println!("| call | empty desk | full desk |");
    println!("|---|---|---|");
    print_reading(&desks);
    print_drawing(&desks);
}

/// A refused addition tests the desk and no more.
fn print_changes(desks: &Desks) {
    desks.change_line("a refused addition (`add_net` of id 0)", |desk| {
        assert_eq!(desk.add_net(0), Err(Refusal::OutOfRange));
    });
    desks.change_line("`add_net` or `retire_end`, then `undo` (both)", |desk| {
        let ends = desk.ends().len();
        let changed = match ends {
            0 => desk.add_net(900),
            _ => desk.retire_end(ends as u32 - 1),
        };
        changed.expect("it goes");
        desk.undo().expect("there is an entry");
    });
}

fn print_reading(desks: &Desks) {
    let text = desks.full.to_string();
    desks.line("`read_text` of its own text (empty, 640 lines)", |desk| {
        let text = if desk.nets().len() == 0 { "" } else { &text };
        desk.read_text(text.as_bytes()).expect("it is good");
    });
}

/// Calls that leave the desk as it is.
fn print_drawing(desks: &Desks) {
    let router = RefCell::new(Router::new());
    desks.line("`search` between two of its ends, pruned", |desk| {
        let mut ends = desk.ends().map(|end| end.at);
        let start = ends.next().unwrap_or(Place::new(0, 0));
        let end: Vec<_> = ends.take(1).collect();
        black_box(router.borrow_mut().search(desk, true, start, &end).is_ok());
    });
    desks.line("`layout`, pruned and separated", |desk| {
        black_box(router.borrow_mut().layout(desk, true, true).is_ok());
    });
}

/// Every list full; the undo entries take the last end out and bring it back.
fn full_desk() -> Desk {
    with_entries(&pages::full(), 255)
}

/// Every owner is looked for through the whole list, and an end that comes back moves all others.
fn worst_desk() -> Desk {
    let mut lists = pages::full();
    let (last_box, last_net) = (&lists.boxes[63], lists.nets[63]);
    for port in &mut lists.ports {
        port.box_id = last_box.id;
    }
    for end in &mut lists.ends {
        end.net_id = last_net;
    }
    with_entries(&lists, 0)
}

/// A full desk whose undo entries take the last end out and bring one back at a place, by turns.
fn with_entries(lists: &Lists, place: u32) -> Desk {
    let mut desk = desk_of(lists);
    let net = *lists.nets.last().expect("it is full") as u32;
    for _ in 0..COPIES {
        desk.retire_end(place).expect("it is there");
        desk.add_end(net, Place::new(0, 0), 0)
            .expect("there is room");
    }
    assert_eq!(desk.copies(), COPIES);
    desk
}
