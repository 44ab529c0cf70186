//! A desk, its changes and its records.

use crate::refusal::{answer, BadLine, Refusal};
use crate::{raw, Place};
use crate::{BOXES_AT, BOX_WORDS, ENDS_AT, END_WORDS, NETS_AT, NET_ID_WORDS, PORTS_AT, PORT_WORDS};
use crate::{DESK_WORDS, ORIGIN, REFUSAL_WORDS};
use std::fmt;

/// A clue desk: boxes, ports, nets and ends, and the undo entries of the last 32 changes.
///
/// A refused call changes nothing, but for a refused text, which leaves the desk empty.
#[derive(Clone)]
pub struct Desk {
    words: Box<[u32]>,
}

/// A box's id and corners.
#[derive(Debug, Clone, Copy, PartialEq, Eq)]
pub struct BoxRecord {
    pub id: u32,
    pub min: Place,
    pub max: Place,
}

/// A port: its box's id, its place, its directions (a sum of `NEG_X`, `POS_X`, `NEG_Y`, `POS_Y`).
#[derive(Debug, Clone, Copy, PartialEq, Eq)]
pub struct PortRecord {
    pub box_id: u32,
    pub at: Place,
    pub directions: u32,
}

/// An end: its net's id, its place, its mark (1: a port is there, 0: none).
#[derive(Debug, Clone, Copy, PartialEq, Eq)]
pub struct EndRecord {
    pub net_id: u32,
    pub at: Place,
    pub mark: u32,
}

impl Default for Desk {
    fn default() -> Self {
        Self::new()
    }
}

impl Desk {
    /// An empty desk.
    pub fn new() -> Self {
        Self {
            words: vec![0; DESK_WORDS].into(),
        }
    }

    /// A desk again of words that were kept, undos and all. Words behind [`DESK_WORDS`] are left.
    ///
    /// # Errors
    ///
    /// `TooSmall` if they are too few, `OutOfRange` if they are no desk.
    pub fn from_words(words: &[u32]) -> Result<Self, Refusal> {
        let words = words.get(..DESK_WORDS).ok_or(Refusal::TooSmall)?;
        let mut desk = Self {
            words: words.into(),
        };
        // Every call tests the desk first; no port is at this place, so this one changes nothing.
        match desk.retire_port(u32::MAX) {
            Err(Refusal::Unknown) => Ok(desk),
            Err(refusal) => Err(refusal),
            Ok(()) => unreachable!("no list is that long"),
        }
    }

    /// All words, as the calls are lent them; the header `clue_desk.h` says how the records lie in
    /// them.
    pub fn words(&self) -> &[u32] {
        &self.words
    }

    /// Makes a call that changes the desk.
    fn change(&mut self, call: impl FnOnce(*mut u32, usize) -> u32) -> Result<(), Refusal> {
        let words = &mut self.words[..];
        answer(call(words.as_mut_ptr(), words.len()))
    }

    /// Reads a page text: empties the desk, then adds the lines without undo entries. A line has at most
    /// 96 bytes with its LF.
    ///
    /// # Errors
    ///
    /// The first line that is malformed or refused; the desk is empty then.
    pub fn read_text(&mut self, text: &[u8]) -> Result<(), BadLine> {
        let mut refusal = [0; REFUSAL_WORDS];
        // SAFETY: each pointer is that of a slice with the length beside it, and none overlap.
        let read = self.change(|desk, size| unsafe {
            raw::read_text(
                desk,
                size,
                text.as_ptr(),
                text.len(),
                refusal.as_mut_ptr(),
                refusal.len(),
            )
        });
        let [line, inner] = refusal;
        let inner = Refusal::of(inner);
        match read {
            Ok(()) => Ok(()),
            Err(Refusal::BadText) => Err(BadLine { line, inner }),
            Err(other) => unreachable!("reading has no number {}", other.number()),
        }
    }

    /// Adds a box.
    ///
    /// # Errors
    ///
    /// `OutOfRange`, `LiveAlready` or `Full`.
    pub fn add_box(&mut self, id: u32, min: Place, max: Place) -> Result<(), Refusal> {
        // SAFETY: the desk's pointer and length are those of its words.
        self.change(|desk, size| unsafe {
            raw::add_box(desk, size, id, min.x, min.y, max.x, max.y)
        })
    }

    /// Adds a port to a box; its directions are a sum of `NEG_X`, `POS_X`, `NEG_Y`, `POS_Y`.
    ///
    /// # Errors
    ///
    /// `OutOfRange`, `Unknown` or `Full`.
    pub fn add_port(&mut self, box_id: u32, at: Place, directions: u32) -> Result<(), Refusal> {
        // SAFETY: the desk's pointer and length are those of its words.
        self.change(|desk, size| unsafe {
            raw::add_port(desk, size, box_id, at.x, at.y, directions)
        })
    }

    /// Adds a net.
    ///
    /// # Errors
    ///
    /// `OutOfRange`, `LiveAlready` or `Full`.
    pub fn add_net(&mut self, id: u32) -> Result<(), Refusal> {
        // SAFETY: the desk's pointer and length are those of its words.
        self.change(|desk, size| unsafe { raw::add_net(desk, size, id) })
    }

    /// Adds an end to a net; its mark is 1 if a port is there, else 0.
    ///
    /// # Errors
    ///
    /// `OutOfRange`, `Unknown` or `Full`.
    pub fn add_end(&mut self, net_id: u32, at: Place, mark: u32) -> Result<(), Refusal> {
        // SAFETY: the desk's pointer and length are those of its words.
        self.change(|desk, size| unsafe { raw::add_end(desk, size, net_id, at.x, at.y, mark) })
    }

    /// Takes the box with an id out.
    ///
    /// # Errors
    ///
    /// `OutOfRange`, `Unknown`, or `InUse` if it has ports.
    pub fn retire_box(&mut self, id: u32) -> Result<(), Refusal> {
        // SAFETY: the desk's pointer and length are those of its words.
        self.change(|desk, size| unsafe { raw::retire_box(desk, size, id) })
    }

    /// Takes the port out that has `place` ports before it.
    ///
    /// # Errors
    ///
    /// `Unknown`.
    pub fn retire_port(&mut self, place: u32) -> Result<(), Refusal> {
        // SAFETY: the desk's pointer and length are those of its words.
        self.change(|desk, size| unsafe { raw::retire_port(desk, size, place) })
    }

    /// Takes the net with an id out.
    ///
    /// # Errors
    ///
    /// `OutOfRange`, `Unknown`, or `InUse` if it has ends.
    pub fn retire_net(&mut self, id: u32) -> Result<(), Refusal> {
        // SAFETY: the desk's pointer and length are those of its words.
        self.change(|desk, size| unsafe { raw::retire_net(desk, size, id) })
    }

    /// Takes the end out that has `place` ends before it.
    ///
    /// # Errors
    ///
    /// `Unknown`.
    pub fn retire_end(&mut self, place: u32) -> Result<(), Refusal> {
        // SAFETY: the desk's pointer and length are those of its words.
        self.change(|desk, size| unsafe { raw::retire_end(desk, size, place) })
    }

    /// Takes the last addition or retirement back, one of the last 32; there is no redo.
    ///
    /// # Errors
    ///
    /// `NothingToUndo`.
    pub fn undo(&mut self) -> Result<(), Refusal> {
        // SAFETY: the desk's pointer and length are those of its words.
        self.change(|desk, size| unsafe { raw::undo(desk, size) })
    }

    /// How many undos in a row are possible.
    pub fn copies(&self) -> usize {
        self.words[0] as usize
    }

    /// The boxes, in kept order.
    pub fn boxes(&self) -> impl ExactSizeIterator<Item = BoxRecord> + '_ {
        self.rows::<BOX_WORDS>(BOXES_AT).map(|row| BoxRecord {
            id: row[0],
            min: place(row[1], row[2]),
            max: place(row[3], row[4]),
        })
    }

    /// The ports, in kept order.
    pub fn ports(&self) -> impl ExactSizeIterator<Item = PortRecord> + '_ {
        self.rows::<PORT_WORDS>(PORTS_AT).map(|row| PortRecord {
            box_id: row[0],
            at: place(row[1], row[2]),
            directions: row[3],
        })
    }

    /// The nets' ids, in kept order.
    pub fn nets(&self) -> impl ExactSizeIterator<Item = u32> + '_ {
        self.rows::<NET_ID_WORDS>(NETS_AT).map(|row| row[0])
    }

    /// The ends, in kept order.
    pub fn ends(&self) -> impl ExactSizeIterator<Item = EndRecord> + '_ {
        self.rows::<END_WORDS>(ENDS_AT).map(|row| EndRecord {
            net_id: row[0],
            at: place(row[1], row[2]),
            mark: row[3],
        })
    }

    /// The rows of the area that begins at a word: a count, then the rows.
    fn rows<const WIDTH: usize>(&self, area: usize) -> impl ExactSizeIterator<Item = &[u32]> {
        let count = self.words[area] as usize;
        self.words[area + 1..][..count * WIDTH].chunks_exact(WIDTH)
    }
}

/// The place of two words.
fn place(x: u32, y: u32) -> Place {
    let step = |word: u32| word.wrapping_sub(ORIGIN) as i32;
    Place::new(step(x), step(y))
}

/// The records as a page text, which reads back as the same records.
impl fmt::Display for Desk {
    fn fmt(&self, f: &mut fmt::Formatter<'_>) -> fmt::Result {
        for BoxRecord { id, min, max } in self.boxes() {
            writeln!(f, "box\t{id}\t{min}\t{max}")?;
        }
        for port in self.ports() {
            let PortRecord {
                box_id,
                at,
                directions,
            } = port;
            writeln!(f, "port\t{box_id}\t{at}\t{directions}")?;
        }
        for id in self.nets() {
            writeln!(f, "net\t{id}")?;
        }
        for EndRecord { net_id, at, mark } in self.ends() {
            writeln!(f, "end\t{net_id}\t{at}\t{mark}")?;
        }
        Ok(())
    }
}

impl fmt::Debug for Desk {
    fn fmt(&self, f: &mut fmt::Formatter<'_>) -> fmt::Result {
        write!(f, "Desk({} undos)\n{self}", self.copies())
    }
}
