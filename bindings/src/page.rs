//! A laid-out page.

use crate::refusal::{answer, Refusal};
use crate::router::PageLists;
use crate::{Desk, Place, JUNCTION_WORDS, NET_WORDS};
use std::fmt;

/// The nets of a desk with their wires.
#[derive(Clone, Copy)]
pub struct Page<'a> {
    desk: &'a Desk,
    lists: &'a PageLists,
}

/// A net of a laid-out page. A refused one has no vertex and no junction.
///
/// Of a routed one each endpoint is the place of a start or of an end without junction, separated
/// or not. What routed does not say:
/// - After separation a branch, whose end has a junction, may end beside the line that it joins,
///   on nothing: one of the two moved, the other did not.
/// - Two nets may share a stretch, also after separation.
/// - Where no line is found the net gets a fallback wire, straight or with one corner, which may
///   cross boxes. It is told by its start, a `RootStart`, that no `Dummy` follows.
#[derive(Clone, Copy)]
pub struct Net<'a> {
    id: u32,
    number: u32,
    first: u32,
    x: &'a [i32],
    y: &'a [i32],
    kinds: &'a [u8],
    joins: &'a [u32],
}

#[derive(Debug, Clone, Copy, PartialEq, Eq)]
pub struct Vertex {
    pub place: Place,
    pub kind: VertexKind,
}

#[derive(Debug, Clone, Copy, PartialEq, Eq)]
pub enum VertexKind {
    RootStart,
    BranchStart,
    Dummy,
    Normal,
    /// A wire's end, with its junction if it has one.
    End(Option<JunctionKind>),
}

#[derive(Debug, Clone, Copy, PartialEq, Eq)]
pub enum JunctionKind {
    Corner,
    LineSegment,
}

/// A vertex of a net and the end vertex of the wire that joins there, counted in the net.
#[derive(Debug, Clone, Copy, PartialEq, Eq)]
pub struct Junction {
    pub vertex: usize,
    pub joining: usize,
    pub kind: JunctionKind,
}

impl JunctionKind {
    /// The letter of 01's listing.
    pub const fn letter(self) -> char {
        match self {
            Self::Corner => 'C',
            Self::LineSegment => 'L',
        }
    }

    fn of(letter: u8) -> Self {
        match letter {
            b'C' => Self::Corner,
            b'L' => Self::LineSegment,
            _ => unreachable!("a junction has no letter {letter}"),
        }
    }
}

impl VertexKind {
    /// The letter of 01's listing.
    pub const fn letter(self) -> char {
        match self {
            Self::RootStart => 'R',
            Self::BranchStart => 'B',
            Self::Dummy => 'D',
            Self::Normal => 'N',
            Self::End(None) => 'E',
            Self::End(Some(junction)) => junction.letter(),
        }
    }

    fn of(letter: u8) -> Self {
        match letter {
            b'R' => Self::RootStart,
            b'B' => Self::BranchStart,
            b'D' => Self::Dummy,
            b'N' => Self::Normal,
            b'E' => Self::End(None),
            _ => Self::End(Some(JunctionKind::of(letter))),
        }
    }
}

impl<'a> Page<'a> {
    pub(crate) fn new(desk: &'a Desk, lists: &'a PageLists) -> Self {
        Self { desk, lists }
    }

    /// The nets, in kept order.
    pub fn nets(&self) -> impl ExactSizeIterator<Item = Net<'a>> + 'a {
        let lists = self.lists;
        let rows = lists.nets.chunks_exact(NET_WORDS);
        self.desk
            .nets()
            .zip(rows)
            .map(|(id, row)| Net::new(id, row, lists))
    }
}

impl<'a> Net<'a> {
    fn new(id: u32, row: &[u32], lists: &'a PageLists) -> Self {
        let &[number, first, vertices, begin, junctions] = row else {
            unreachable!("a net's row has five words");
        };
        let wires = first as usize..(first + vertices) as usize;
        let joins = begin as usize..(begin + junctions) as usize;
        Self {
            id,
            number,
            first,
            x: &lists.x[wires.clone()],
            y: &lists.y[wires.clone()],
            kinds: &lists.kinds[wires],
            joins: &lists.joins[JUNCTION_WORDS * joins.start..JUNCTION_WORDS * joins.end],
        }
    }

    pub fn id(&self) -> u32 {
        self.id
    }

    /// 01's number, 0 if the net is routed.
    pub fn number(&self) -> u32 {
        self.number
    }

    /// Whether the net is routed.
    ///
    /// # Errors
    ///
    /// `TooFewEndpoints`, `EndpointUnknown`, `OneNodeLine` or `OverLimit`.
    pub fn routed(&self) -> Result<(), Refusal> {
        answer(self.number)
    }

    /// The vertices, wire by wire.
    pub fn vertices(&self) -> impl ExactSizeIterator<Item = Vertex> + 'a {
        let Self { x, y, kinds, .. } = *self;
        (0..kinds.len()).map(move |at| Vertex {
            place: Place::new(x[at], y[at]),
            kind: VertexKind::of(kinds[at]),
        })
    }

    /// The junctions, as they were made.
    pub fn junctions(&self) -> impl ExactSizeIterator<Item = Junction> + 'a {
        let first = self.first;
        self.joins.chunks_exact(JUNCTION_WORDS).map(move |row| {
            let letter = u8::try_from(row[2]).expect("a letter is a byte");
            Junction {
                vertex: (row[0] - first) as usize,
                joining: (row[1] - first) as usize,
                kind: JunctionKind::of(letter),
            }
        })
    }
}

/// The lines of a net in the listing: `net`, then `v` lines, then `j` lines by vertex and as they
/// were made.
impl fmt::Display for Net<'_> {
    fn fmt(&self, f: &mut fmt::Formatter<'_>) -> fmt::Result {
        let (vertices, junctions) = (self.vertices().len(), self.junctions().len());
        let (id, number) = (self.id, self.number);
        writeln!(f, "net\t{id}\t{number}\t{vertices}\t{junctions}")?;
        for (index, Vertex { place, kind }) in self.vertices().enumerate() {
            writeln!(f, "v\t{index}\t{place}\t{}", kind.letter())?;
        }
        let mut by_vertex: Vec<_> = self.junctions().collect();
        by_vertex.sort_by_key(|junction| junction.vertex);
        for junction in by_vertex {
            let Junction {
                vertex,
                joining,
                kind,
            } = junction;
            writeln!(f, "j\t{vertex}\t{joining}\t{}", kind.letter())?;
        }
        Ok(())
    }
}

/// The listing that program `wires` prints of the page.
impl fmt::Display for Page<'_> {
    fn fmt(&self, f: &mut fmt::Formatter<'_>) -> fmt::Result {
        self.nets().try_for_each(|net| net.fmt(f))
    }
}
