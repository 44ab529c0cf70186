//! Searches and layouts, over buffers that are used again.

use crate::line::Line;
use crate::page::Page;
use crate::refusal::{answer, Refusal};
use crate::{raw, Desk, Place};
use crate::{JOINS_WORDS, LINE_NODES, NETS_WORDS, VERTICES};

/// The lists that searches and layouts leave their answers in.
///
/// A search or a layout builds the page's graph from the desk and keeps nothing from one call to
/// the next. Their scratch is on the stack: see [`STACK`](crate::STACK).
pub struct Router {
    pub(crate) line: LineLists,
    pub(crate) page: PageLists,
    ends: [Vec<i32>; 2],
}

pub(crate) struct LineLists {
    pub x: Box<[i32]>,
    pub y: Box<[i32]>,
    pub kinds: Box<[u8]>,
    pub dirs: Box<[u8]>,
}

pub(crate) struct PageLists {
    pub nets: Box<[u32]>,
    pub x: Box<[i32]>,
    pub y: Box<[i32]>,
    pub kinds: Box<[u8]>,
    pub joins: Box<[u32]>,
}

fn zeros<T: Clone + Default>(count: usize) -> Box<[T]> {
    vec![T::default(); count].into()
}

impl Default for Router {
    fn default() -> Self {
        Self::new()
    }
}

impl Router {
    pub fn new() -> Self {
        Self {
            line: LineLists {
                x: zeros(LINE_NODES),
                y: zeros(LINE_NODES),
                kinds: zeros(LINE_NODES),
                dirs: zeros(LINE_NODES),
            },
            page: PageLists {
                nets: zeros(NETS_WORDS),
                x: zeros(VERTICES),
                y: zeros(VERTICES),
                kinds: zeros(VERTICES),
                joins: zeros(JOINS_WORDS),
            },
            ends: [Vec::new(), Vec::new()],
        }
    }

    /// The line from a start to one of the ends, on the graph pruned or not.
    ///
    /// # Errors
    ///
    /// `OutOfRange`, `Crowded`, `StartUnknown`, `EndUnknown` or `NoLine`.
    pub fn search(
        &mut self,
        desk: &Desk,
        prune: bool,
        start: Place,
        ends: &[Place],
    ) -> Result<Line<'_>, Refusal> {
        let [ex, ey] = &mut self.ends;
        ex.clear();
        ey.clear();
        ex.extend(ends.iter().map(|end| end.x));
        ey.extend(ends.iter().map(|end| end.y));
        let LineLists { x, y, kinds, dirs } = &mut self.line;
        let words = desk.words();
        // SAFETY: each pointer is that of a slice with the length beside it, and none overlap.
        let number = unsafe {
            raw::search(
                words.as_ptr(),
                words.len(),
                prune.into(),
                start.x,
                start.y,
                ex.as_ptr(),
                ex.len(),
                ey.as_ptr(),
                ey.len(),
                x.as_mut_ptr(),
                x.len(),
                y.as_mut_ptr(),
                y.len(),
                kinds.as_mut_ptr(),
                kinds.len(),
                dirs.as_mut_ptr(),
                dirs.len(),
            )
        };
        answer(number)?;
        Ok(Line::new(&self.line))
    }

    /// All nets of a desk on its graph, pruned or not, one after another; then their wires
    /// separated or not. A net that is refused is a net of the page. What holds of a routed one,
    /// and what does not: see [`Net`](crate::Net).
    ///
    /// # Errors
    ///
    /// `Crowded`.
    pub fn layout<'a>(
        &'a mut self,
        desk: &'a Desk,
        prune: bool,
        separate: bool,
    ) -> Result<Page<'a>, Refusal> {
        let PageLists {
            nets,
            x,
            y,
            kinds,
            joins,
        } = &mut self.page;
        let words = desk.words();
        // SAFETY: each pointer is that of a slice with the length beside it, and none overlap.
        let number = unsafe {
            raw::layout(
                words.as_ptr(),
                words.len(),
                prune.into(),
                separate.into(),
                nets.as_mut_ptr(),
                nets.len(),
                x.as_mut_ptr(),
                x.len(),
                y.as_mut_ptr(),
                y.len(),
                kinds.as_mut_ptr(),
                kinds.len(),
                joins.as_mut_ptr(),
                joins.len(),
            )
        };
        answer(number)?;
        Ok(Page::new(desk, &self.page))
    }
}
