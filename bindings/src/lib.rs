//! Clue boxes, their ports and nets on a desk, and the leader lines of its page.
//!
//! A safe wrapper of the static library `clue_desk`, whose every function is proved to do what the
//! paper 01 says. `bindings/build` makes the library and this crate.
//!
//! ```
//! use clue_desk::{Desk, Place, Router};
//!
//! let mut desk = Desk::new();
//! desk.add_net(1)?;
//! desk.add_end(1, Place::new(0, 0), 0)?;
//! desk.add_end(1, Place::new(2560, 5120), 0)?;
//!
//! let mut router = Router::new();
//! let page = router.layout(&desk, true, true)?;
//! let net = page.nets().next().expect("there is a net");
//! assert_eq!(net.routed(), Ok(()));
//! assert_eq!(net.vertices().last().unwrap().place, Place::new(2560, 5120));
//! # Ok::<(), clue_desk::Refusal>(())
//! ```
//!
//! Coordinates are steps, 256 to the unit. The library has no state of its own: desks and routers
//! may be used on any threads at once, each by one caller at a time, which the borrow checker sees
//! to. Searches and layouts keep their scratch on the stack; [`STACK`] bytes suffice.

mod desk;
mod line;
mod page;
pub mod raw;
mod refusal;
mod router;
mod sizes;

pub use desk::{BoxRecord, Desk, EndRecord, PortRecord};
pub use line::{Line, LineNode, NodeKind};
pub use page::{Junction, JunctionKind, Net, Page, Vertex, VertexKind};
pub use refusal::{BadLine, Refusal};
pub use router::Router;
pub use sizes::*;

use std::fmt;

/// A place in steps.
#[derive(Debug, Clone, Copy, PartialEq, Eq, Hash)]
pub struct Place {
    pub x: i32,
    pub y: i32,
}

impl Place {
    pub const fn new(x: i32, y: i32) -> Self {
        Self { x, y }
    }
}

/// As two fields of a record.
impl fmt::Display for Place {
    fn fmt(&self, f: &mut fmt::Formatter<'_>) -> fmt::Result {
        write!(f, "{}\t{}", self.x, self.y)
    }
}

#[derive(Debug, Clone, Copy, PartialEq, Eq, Hash)]
pub enum Direction {
    NegX,
    PosX,
    NegY,
    PosY,
}

impl Direction {
    pub const ALL: [Self; 4] = [Self::NegX, Self::PosX, Self::NegY, Self::PosY];

    /// Its part of a port's directions.
    pub const fn bit(self) -> u32 {
        match self {
            Self::NegX => NEG_X,
            Self::PosX => POS_X,
            Self::NegY => NEG_Y,
            Self::PosY => POS_Y,
        }
    }

    /// The direction with a bit; none for 0 and for sums.
    pub fn of_bit(bit: u32) -> Option<Self> {
        Self::ALL.into_iter().find(|dir| dir.bit() == bit)
    }
}
