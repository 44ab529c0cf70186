//! The line of a search.

use crate::router::LineLists;
use crate::{Direction, Place};

/// A line from its start to an end, over links of the graph.
#[derive(Clone, Copy)]
pub struct Line<'a> {
    x: &'a [i32],
    y: &'a [i32],
    kinds: &'a [u8],
    dirs: &'a [u8],
}

/// A node of a line, and the direction onward; none at the end.
#[derive(Debug, Clone, Copy, PartialEq, Eq)]
pub struct LineNode {
    pub place: Place,
    pub kind: NodeKind,
    pub onward: Option<Direction>,
}

#[derive(Debug, Clone, Copy, PartialEq, Eq)]
pub enum NodeKind {
    Start,
    Normal,
    End,
}

impl NodeKind {
    /// The letter that the library writes.
    pub const fn letter(self) -> char {
        match self {
            Self::Start => 'S',
            Self::Normal => 'N',
            Self::End => 'E',
        }
    }

    fn of(letter: u8) -> Self {
        match letter {
            b'S' => Self::Start,
            b'N' => Self::Normal,
            b'E' => Self::End,
            _ => unreachable!("a node has no letter {letter}"),
        }
    }
}

impl<'a> Line<'a> {
    /// Of the lists that a search at 0 left: the last node, and no other, has the kind E.
    pub(crate) fn new(lists: &'a LineLists) -> Self {
        let end = lists.kinds.iter().position(|&kind| kind == b'E');
        let count = end.expect("a line has an end") + 1;
        Self {
            x: &lists.x[..count],
            y: &lists.y[..count],
            kinds: &lists.kinds[..count],
            dirs: &lists.dirs[..count],
        }
    }

    /// How many nodes it has: one or more.
    #[allow(clippy::len_without_is_empty)]
    pub fn len(&self) -> usize {
        self.kinds.len()
    }

    /// The nodes from start to end. A line of one node is its end.
    pub fn nodes(&self) -> impl ExactSizeIterator<Item = LineNode> + 'a {
        let Self { x, y, kinds, dirs } = *self;
        (0..kinds.len()).map(move |at| LineNode {
            place: Place::new(x[at], y[at]),
            kind: NodeKind::of(kinds[at]),
            onward: Direction::of_bit(dirs[at].into()),
        })
    }
}
