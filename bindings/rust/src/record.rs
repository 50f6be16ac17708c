//! Why records open no worlds.

use crate::{raw, OpenError, Refusal};
use std::error::Error;
use std::fmt;

/// Why a world can't be opened from a record.
#[derive(Clone, Copy, Debug, PartialEq, Eq)]
#[non_exhaustive]
pub enum RecordError {
    /// It is no record: the step of this place, counted from 1, is none; at 0 the whole is none.
    NoRecord(usize),
    /// A world can't be opened.
    Open(OpenError),
    /// The step of this place, counted from 1, is refused.
    Refused(usize, Refusal),
}

impl RecordError {
    /// What the library tells, or Ok where the world was opened.
    pub(crate) fn of(told: raw::Opened) -> Result<(), RecordError> {
        match told.refusal {
            raw::NO_RECORD => Err(RecordError::NoRecord(told.at)),
            number if told.at == 0 => OpenError::of(number).map_err(RecordError::Open),
            number => Refusal::of(number).map_err(|refusal| RecordError::Refused(told.at, refusal)),
        }
    }
}

impl fmt::Display for RecordError {
    fn fmt(&self, f: &mut fmt::Formatter<'_>) -> fmt::Result {
        match self {
            RecordError::NoRecord(0) => f.write_str("no record"),
            RecordError::NoRecord(at) => write!(f, "step {at}: not a step"),
            RecordError::Open(error) => error.fmt(f),
            RecordError::Refused(at, refusal) => write!(f, "step {at}: {refusal}"),
        }
    }
}

impl Error for RecordError {}
