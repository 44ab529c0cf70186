//! Numbers other than 0, with 01's meaning.

use std::error::Error;
use std::fmt;

/// Why a call was refused: 01's number and its condition.
#[derive(Debug, Clone, Copy, PartialEq, Eq, Hash)]
#[repr(u32)]
pub enum Refusal {
    TooSmall = 1,
    OutOfRange = 2,
    LiveAlready = 3,
    Unknown = 4,
    InUse = 5,
    Full = 6,
    NothingToUndo = 7,
    Crowded = 8,
    StartUnknown = 9,
    EndUnknown = 10,
    NoLine = 11,
    TooFewEndpoints = 12,
    EndpointUnknown = 13,
    OneNodeLine = 14,
    OverLimit = 15,
    BadText = 16,
}

impl Refusal {
    /// All of them, by number.
    pub const ALL: [Self; 16] = [
        Self::TooSmall,
        Self::OutOfRange,
        Self::LiveAlready,
        Self::Unknown,
        Self::InUse,
        Self::Full,
        Self::NothingToUndo,
        Self::Crowded,
        Self::StartUnknown,
        Self::EndUnknown,
        Self::NoLine,
        Self::TooFewEndpoints,
        Self::EndpointUnknown,
        Self::OneNodeLine,
        Self::OverLimit,
        Self::BadText,
    ];

    /// 01's number.
    pub const fn number(self) -> u32 {
        self as u32
    }

    /// The refusal with a number; none for 0 and for what is no number of 01.
    pub fn of(number: u32) -> Option<Self> {
        let place = usize::try_from(number).ok()?.checked_sub(1)?;
        Self::ALL.get(place).copied()
    }

    /// 01's condition.
    pub const fn meaning(self) -> &'static str {
        match self {
            Self::TooSmall => "a lent output, desk or scratch buffer is below its limit's size",
            Self::OutOfRange => {
                "a field out of range, least above greatest, x and y lists unequal, over 4,096 ends"
            }
            Self::LiveAlready => "id live already",
            Self::Unknown => "box, net or place unknown",
            Self::InUse => "box has ports, or net has ends",
            Self::Full => "that list is full",
            Self::NothingToUndo => "nothing to undo",
            Self::Crowded => "over 2,048 implicit anchors or 4,096 nodes",
            Self::StartUnknown => "start is no node",
            Self::EndUnknown => "an end is no node",
            Self::NoLine => "no line",
            Self::TooFewEndpoints => "net has under two endpoints",
            Self::EndpointUnknown => "an endpoint is no node",
            Self::OneNodeLine => "a net's line of one node",
            Self::OverLimit => "page vertices or net ends over limit",
            Self::BadText => "text line malformed or refused",
        }
    }
}

impl fmt::Display for Refusal {
    fn fmt(&self, f: &mut fmt::Formatter<'_>) -> fmt::Result {
        write!(f, "{} ({})", self.meaning(), self.number())
    }
}

impl Error for Refusal {}

/// What a call's number says.
///
/// # Panics
///
/// On a number that 01 does not have, which no call returns.
pub(crate) fn answer(number: u32) -> Result<(), Refusal> {
    match Refusal::of(number) {
        None if number == 0 => Ok(()),
        None => panic!("{number} is no number of 01"),
        Some(refusal) => Err(refusal),
    }
}

/// The line at which a page text was refused, number 16.
#[derive(Debug, Clone, Copy, PartialEq, Eq, Hash)]
pub struct BadLine {
    /// Counted from 1.
    pub line: u32,
    /// Why its record was refused; none if the line is malformed.
    pub inner: Option<Refusal>,
}

impl BadLine {
    /// 01's number, 16.
    pub const fn number(self) -> u32 {
        Refusal::BadText.number()
    }

    /// 01's inner number, 0 if the line is malformed.
    pub fn inner_number(self) -> u32 {
        self.inner.map_or(0, Refusal::number)
    }
}

impl fmt::Display for BadLine {
    fn fmt(&self, f: &mut fmt::Formatter<'_>) -> fmt::Result {
        match self.inner {
            None => write!(f, "line {} is malformed", self.line),
            Some(inner) => write!(f, "line {}: {inner}", self.line),
        }
    }
}

impl Error for BadLine {}
