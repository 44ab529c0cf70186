//! The book of document 01's 'Desk and page text': lists of records and a pile of copies.

use std::ops::RangeInclusive;

pub const DONE: u32 = 0;
pub const OUT_OF_RANGE: u32 = 2;
pub const LIVE_ALREADY: u32 = 3;
pub const UNKNOWN: u32 = 4;
pub const IN_USE: u32 = 5;
pub const FULL: u32 = 6;
pub const NOTHING_TO_UNDO: u32 = 7;

pub const MAX_BOXES: usize = 64;
pub const MAX_PORTS: usize = 256;
pub const MAX_NETS: usize = 64;
pub const MAX_ENDS: usize = 256;
pub const MAX_COPIES: usize = 32;

/// Document 02, S-1; document 01 has 65,535.
pub const IDS: RangeInclusive<i64> = 1..=4_294_967_295;
pub const COORDINATES: RangeInclusive<i64> = -4_194_304..=4_194_304;
const DIRECTIONS: RangeInclusive<i64> = 0..=15;
const MARKS: RangeInclusive<i64> = 0..=1;

#[derive(Debug, Clone, PartialEq, Eq)]
pub struct ClueBox {
    pub id: i64,
    pub min: Place,
    pub max: Place,
}

#[derive(Debug, Clone, PartialEq, Eq)]
pub struct Port {
    pub box_id: i64,
    pub at: Place,
    pub directions: i64,
}

#[derive(Debug, Clone, PartialEq, Eq)]
pub struct End {
    pub net_id: i64,
    pub at: Place,
    pub mark: i64,
}

/// A place in steps.
#[derive(Debug, Clone, Copy, PartialEq, Eq, PartialOrd, Ord)]
pub struct Place {
    pub x: i64,
    pub y: i64,
}

impl Place {
    pub const fn new(x: i64, y: i64) -> Self {
        Self { x, y }
    }

    pub fn in_range(self) -> bool {
        COORDINATES.contains(&self.x) && COORDINATES.contains(&self.y)
    }
}

/// The records now, in kept order. Each change answers with document 01's number and changes
/// nothing unless that is 0.
#[derive(Default, Debug, Clone, PartialEq, Eq)]
pub struct Lists {
    pub boxes: Vec<ClueBox>,
    pub ports: Vec<Port>,
    pub nets: Vec<i64>,
    pub ends: Vec<End>,
}

impl Lists {
    fn has_box(&self, id: i64) -> bool {
        self.boxes.iter().any(|b| b.id == id)
    }

    fn has_net(&self, id: i64) -> bool {
        self.nets.contains(&id)
    }

    pub fn add_box(&mut self, id: i64, min: Place, max: Place) -> u32 {
        let fields = IDS.contains(&id) && min.in_range() && max.in_range();
        if !fields || min.x > max.x || min.y > max.y {
            OUT_OF_RANGE
        } else if self.has_box(id) {
            LIVE_ALREADY
        } else {
            add(&mut self.boxes, MAX_BOXES, ClueBox { id, min, max })
        }
    }

    pub fn add_port(&mut self, box_id: i64, at: Place, directions: i64) -> u32 {
        if !IDS.contains(&box_id) || !at.in_range() || !DIRECTIONS.contains(&directions) {
            OUT_OF_RANGE
        } else if !self.has_box(box_id) {
            UNKNOWN
        } else {
            let port = Port {
                box_id,
                at,
                directions,
            };
            add(&mut self.ports, MAX_PORTS, port)
        }
    }

    pub fn add_net(&mut self, id: i64) -> u32 {
        if !IDS.contains(&id) {
            OUT_OF_RANGE
        } else if self.has_net(id) {
            LIVE_ALREADY
        } else {
            add(&mut self.nets, MAX_NETS, id)
        }
    }

    pub fn add_end(&mut self, net_id: i64, at: Place, mark: i64) -> u32 {
        if !IDS.contains(&net_id) || !at.in_range() || !MARKS.contains(&mark) {
            OUT_OF_RANGE
        } else if !self.has_net(net_id) {
            UNKNOWN
        } else {
            add(&mut self.ends, MAX_ENDS, End { net_id, at, mark })
        }
    }

    pub fn retire_box(&mut self, id: i64) -> u32 {
        let in_use = self.ports.iter().any(|port| port.box_id == id);
        retire_by_id(&mut self.boxes, |b| b.id, id, in_use)
    }

    pub fn retire_net(&mut self, id: i64) -> u32 {
        let in_use = self.ends.iter().any(|end| end.net_id == id);
        retire_by_id(&mut self.nets, |&net| net, id, in_use)
    }

    pub fn retire_port(&mut self, place: usize) -> u32 {
        retire_by_place(&mut self.ports, place)
    }

    pub fn retire_end(&mut self, place: usize) -> u32 {
        retire_by_place(&mut self.ends, place)
    }
}

fn add<T>(list: &mut Vec<T>, limit: usize, record: T) -> u32 {
    if list.len() >= limit {
        return FULL;
    }
    list.push(record);
    DONE
}

fn retire_by_id<T>(list: &mut Vec<T>, key: impl Fn(&T) -> i64, id: i64, in_use: bool) -> u32 {
    if !IDS.contains(&id) {
        return OUT_OF_RANGE;
    }
    let Some(place) = list.iter().position(|record| key(record) == id) else {
        return UNKNOWN;
    };
    if in_use {
        return IN_USE;
    }
    list.remove(place);
    DONE
}

fn retire_by_place<T>(list: &mut Vec<T>, place: usize) -> u32 {
    if place >= list.len() {
        return UNKNOWN;
    }
    list.remove(place);
    DONE
}

/// The lists and the copies that undo puts back, latest last.
#[derive(Default, Debug, Clone, PartialEq, Eq)]
pub struct Desk {
    pub lists: Lists,
    pub pile: Vec<Lists>,
}

impl Desk {
    /// Makes one addition or retirement, laying a copy on the pile if it is done.
    pub fn change(&mut self, change: impl FnOnce(&mut Lists) -> u32) -> u32 {
        let before = self.lists.clone();
        let number = change(&mut self.lists);
        if number == DONE {
            self.pile.push(before);
            if self.pile.len() > MAX_COPIES {
                self.pile.remove(0);
            }
        }
        number
    }

    pub fn undo(&mut self) -> u32 {
        let Some(before) = self.pile.pop() else {
            return NOTHING_TO_UNDO;
        };
        self.lists = before;
        DONE
    }

    /// Takes what reading a page text left; the pile is empty then.
    pub fn replace(&mut self, lists: Lists) {
        *self = Self {
            lists,
            pile: Vec::new(),
        };
    }
}
