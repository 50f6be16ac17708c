//! What a world is made of.

use crate::raw;
use std::error::Error;
use std::fmt;

/// How many members a group has at most.
pub const MAX_MEMBERS: u8 = 16;

/// How many cells for batches a world has at most.
pub const MAX_CELLS: u16 = 1_024;

/// The largest bound on the messages of a proposal. More can't be pending, so it bounds nothing.
pub const MAX_BOUND: u32 = 1_048_560;

/// How many registers a table has.
pub const REGISTERS: usize = 16;

/// How many cells a schedule has where it doesn't say.
const USUAL_CELLS: u16 = 64;

/// What a world is made of.
#[derive(Clone, Copy, Debug, PartialEq, Eq)]
pub struct Setup {
    /// The number of members, 1 to [`MAX_MEMBERS`].
    pub members: u8,
    /// The number of cells for posted batches, which is how many instances can be delivered: 0 to [`MAX_CELLS`].
    pub cells: u16,
    /// How many messages a member proposes for an instance at most, 1 to [`MAX_BOUND`].
    pub bound: u32,
}

impl Setup {
    /// So many members, with 64 cells and proposals without a bound.
    pub fn of(members: u8) -> Setup {
        Setup { members, cells: USUAL_CELLS, bound: MAX_BOUND }
    }
}

/// Why a world or a walk can't be opened.
#[derive(Clone, Copy, Debug, PartialEq, Eq)]
#[non_exhaustive]
pub enum OpenError {
    /// A number of the setup is out of its range.
    BadSetup,
    /// An option of the walk is.
    BadOptions,
    /// Memory was refused.
    OutOfMemory,
}

impl OpenError {
    /// The error of this number of ct.h, or Ok at 0.
    pub(crate) fn of(number: u32) -> Result<(), OpenError> {
        match number {
            0 => Ok(()),
            raw::OUT_OF_MEMORY => Err(OpenError::OutOfMemory),
            raw::BAD_SETUP => Err(OpenError::BadSetup),
            raw::BAD_OPTIONS => Err(OpenError::BadOptions),
            number => unreachable!("the library answers {number}"),
        }
    }
}

impl fmt::Display for OpenError {
    fn fmt(&self, f: &mut fmt::Formatter<'_>) -> fmt::Result {
        match self {
            OpenError::BadSetup => write!(f, "members are 1 to {MAX_MEMBERS}, cells 0 to {MAX_CELLS}, bounds 1 to {MAX_BOUND}"),
            OpenError::BadOptions => f.write_str("an option of the walk is out of its range"),
            OpenError::OutOfMemory => f.write_str("out of memory"),
        }
    }
}

impl Error for OpenError {}
