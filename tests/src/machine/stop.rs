//! Why a run does not go on.

use crate::instruction::Fault;

/// The number of an end other than spent: finished, or the trap.
#[derive(Clone, Copy, Debug, PartialEq, Eq)]
#[repr(u8)]
pub enum Stop {
    Finished = 0,
    // Code traps.
    Unserved = 20,
    OutsideCode = 21,
    TooFewWords = 22,
    NoCallee = 23,
    // Data traps.
    ZeroDivisor = 30,
    DoesNotFit = 31,
    NotLive = 32,
    Protected = 33,
    NotBoolean = 34,
    MemoryFull = 35,
    StackFull = 36,
    TooManyCalls = 37,
    FreeBelowFrame = 38,
}

impl From<Fault> for Stop {
    #[inline(always)]
    fn from(fault: Fault) -> Stop {
        match fault {
            Fault::Unserved => Stop::Unserved,
            Fault::Past => Stop::OutsideCode,
        }
    }
}
