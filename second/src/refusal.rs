//! Refusal numbers (01): each ground has its number here and nowhere else.

use std::fmt;

/// Why a call was refused.
#[derive(Clone, Copy, PartialEq, Eq, Debug)]
#[repr(u8)]
pub enum Ground {
    WordTooWide = 1,
    WaitTooLong = 2,
    MemoryTooLong = 3,
    EventWhileHalted = 4,
    OddPc = 5,
    ReservedSize = 6,
    TraceTooLong = 7,
    ReservedPst = 8,
    MarkerTooEarly = 9,
    TraceEndsInTransfer = 10,
    BufferTooShort = 11,
    StateOutOfRange = 12,
    FieldOutOfRange = 13,
    ReplyNotPossible = 14,
}

/// A refusal: its ground, and the cycle for grounds 8 and 9, zero elsewhere.
#[derive(Clone, Copy, PartialEq, Eq, Debug)]
pub struct Refusal {
    pub ground: Ground,
    pub cycle: u32,
}

impl Refusal {
    pub fn number(self) -> u8 {
        self.ground as u8
    }

    pub fn at(ground: Ground, cycle: u32) -> Refusal {
        Refusal { ground, cycle }
    }
}

impl From<Ground> for Refusal {
    fn from(ground: Ground) -> Refusal {
        Refusal { ground, cycle: 0 }
    }
}

impl fmt::Display for Refusal {
    fn fmt(&self, f: &mut fmt::Formatter<'_>) -> fmt::Result {
        write!(f, "refused {} at {}", self.number(), self.cycle)
    }
}
