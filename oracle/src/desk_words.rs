//! A desk in 32-bit words, as a caller hands it in.
//!
//! Word 0 is the pile's depth. Behind it stand the lists now, an area a kind: a count, then a row a
//! record. Behind them stand the undo entries, the latest first. What an entry does is its first
//! word: 0 to 3, the last box, port, net or end goes; 4 to 7, such a record comes back, at the
//! place that follows and with the row behind it.

use crate::desk::{Desk, Lists, Place, DONE};
use crate::desk::{MAX_BOXES, MAX_COPIES, MAX_ENDS, MAX_NETS, MAX_PORTS};

/// The kinds of records, in the order of their areas.
#[derive(Debug, Clone, Copy, PartialEq, Eq)]
pub enum Kind {
    Box,
    Port,
    Net,
    End,
}

/// Words of a row, and the most rows of a list, by kind.
const WIDTHS: [usize; KINDS] = [5, 4, 1, 4];
const MOST: [usize; KINDS] = [MAX_BOXES, MAX_PORTS, MAX_NETS, MAX_ENDS];

const KINDS: usize = 4;

/// Where the pile's depth stands, and the first area.
pub const DEPTH: usize = 0;
const LISTS: usize = 1;

/// Words of an undo entry, and where in it the place and the row begin.
pub const ENTRY: usize = ROW + WIDTHS[Kind::Box as usize];
pub const PLACE: usize = 1;
pub const ROW: usize = 2;

/// Where the undo entries begin, and the words of a desk.
const PILE: usize = Kind::End.row(MAX_ENDS);
pub const DESK: usize = PILE + MAX_COPIES * ENTRY;

/// A coordinate's word is counted from -2^31.
pub const ORIGIN: i64 = 1 << 31;

impl Kind {
    pub const ALL: [Self; KINDS] = [Self::Box, Self::Port, Self::Net, Self::End];

    /// Words of a record.
    pub const fn width(self) -> usize {
        WIDTHS[self as usize]
    }

    /// The most records.
    pub const fn most(self) -> usize {
        MOST[self as usize]
    }

    /// Where its area begins: its count.
    pub const fn count(self) -> usize {
        let (mut at, mut kind) = (LISTS, 0);
        while kind < self as usize {
            at += 1 + WIDTHS[kind] * MOST[kind];
            kind += 1;
        }
        at
    }

    /// Where the row of the record at a place begins.
    pub const fn row(self, place: usize) -> usize {
        self.count() + 1 + place * self.width()
    }

    /// The first word of an entry by which the last record goes.
    pub const fn goes(self) -> u32 {
        self as u32
    }

    /// The first word of an entry by which a record comes back.
    pub const fn comes_back(self) -> u32 {
        (KINDS + self as usize) as u32
    }
}

/// Where an entry begins; the latest is 0.
pub const fn entry(number: usize) -> usize {
    PILE + number * ENTRY
}

/// The records of each kind as rows.
type Rows = [Vec<Vec<u32>>; KINDS];

fn rows(lists: &Lists) -> Rows {
    let word = |field: i64| u32::try_from(field).expect("a field fits");
    let step = |step: i64| word(step + ORIGIN);
    let point = |id, at: Place, last| vec![word(id), step(at.x), step(at.y), word(last)];
    let boxes = lists.boxes.iter().map(|b| {
        let (min, max) = (b.min, b.max);
        let id = word(b.id);
        vec![id, step(min.x), step(min.y), step(max.x), step(max.y)]
    });
    let ports = lists.ports.iter();
    let ends = lists.ends.iter();
    [
        boxes.collect(),
        ports.map(|p| point(p.box_id, p.at, p.directions)).collect(),
        lists.nets.iter().map(|&id| vec![word(id)]).collect(),
        ends.map(|e| point(e.net_id, e.at, e.mark)).collect(),
    ]
}

/// The lists to which the rows can be added one by one.
fn lists(rows: &Rows) -> Option<Lists> {
    let mut lists = Lists::default();
    for (kind, rows) in Kind::ALL.into_iter().zip(rows) {
        for row in rows {
            if add(&mut lists, kind, row) != DONE {
                return None;
            }
        }
    }
    Some(lists)
}

fn add(lists: &mut Lists, kind: Kind, row: &[u32]) -> u32 {
    let field = |at: usize| i64::from(row[at]);
    let place = |at| Place::new(field(at) - ORIGIN, field(at + 1) - ORIGIN);
    match kind {
        Kind::Box => lists.add_box(field(0), place(1), place(3)),
        Kind::Port => lists.add_port(field(0), place(1), field(3)),
        Kind::Net => lists.add_net(field(0)),
        Kind::End => lists.add_end(field(0), place(1), field(3)),
    }
}

/// The words of a desk, with zeros where anything may stand.
pub fn words(desk: &Desk) -> Vec<u32> {
    let mut words = vec![0; DESK];
    let mut now = rows(&desk.lists);
    words[DEPTH] = desk.pile.len() as u32;
    for (kind, rows) in Kind::ALL.into_iter().zip(&now) {
        words[kind.count()] = rows.len() as u32;
        let row_words = rows.concat();
        words[kind.row(0)..][..row_words.len()].copy_from_slice(&row_words);
    }
    for (number, before) in desk.pile.iter().rev().enumerate() {
        let before = rows(before);
        let undoing = undoing(&before, &now);
        words[entry(number)..][..undoing.len()].copy_from_slice(&undoing);
        now = before;
    }
    words
}

/// The words of the entry that undoes one change.
fn undoing(before: &Rows, after: &Rows) -> Vec<u32> {
    let changed = |kind: &Kind| before[*kind as usize] != after[*kind as usize];
    let kind = Kind::ALL.into_iter().find(changed);
    let kind = kind.expect("a change changes a list");
    let (before, after) = (&before[kind as usize], &after[kind as usize]);
    if before.len() < after.len() {
        return vec![kind.goes()];
    }
    let same = before.iter().zip(after).take_while(|(b, a)| b == a);
    let place = same.count();
    [&[kind.comes_back(), place as u32], &before[place][..]].concat()
}

/// The desk that words stand for, if they do: the lists now keep 01's limits, and each entry, taken
/// in turn, applies and leaves lists that keep them.
pub fn desk(words: &[u32]) -> Option<Desk> {
    let depth = words[DEPTH] as usize;
    let counts = Kind::ALL.map(|kind| words[kind.count()] as usize);
    let fit = |(kind, &count): (Kind, &usize)| count <= kind.most();
    if depth > MAX_COPIES || !Kind::ALL.into_iter().zip(&counts).all(fit) {
        return None;
    }
    let mut rows = Kind::ALL.map(|kind| {
        let rows = &words[kind.row(0)..kind.row(counts[kind as usize])];
        rows.chunks(kind.width()).map(<[u32]>::to_vec).collect()
    });
    let now = lists(&rows)?;
    let mut pile = Vec::new();
    for number in 0..depth {
        take_entry(&mut rows, &words[entry(number)..][..ENTRY])?;
        pile.push(lists(&rows)?);
    }
    pile.reverse();
    Some(Desk { lists: now, pile })
}

/// Undoes a change, if the entry applies.
fn take_entry(rows: &mut Rows, entry: &[u32]) -> Option<()> {
    let goes = Kind::ALL.into_iter().find(|kind| kind.goes() == entry[0]);
    if let Some(kind) = goes {
        rows[kind as usize].pop()?;
        return Some(());
    }
    let mut kinds = Kind::ALL.into_iter();
    let kind = kinds.find(|kind| kind.comes_back() == entry[0])?;
    let (rows, place) = (&mut rows[kind as usize], entry[PLACE] as usize);
    if place > rows.len() {
        return None;
    }
    rows.insert(place, entry[ROW..][..kind.width()].to_vec());
    Some(())
}
