//! What a store's functions can answer instead of what was asked.

use std::fmt;

use crate::replay::Stopped;
use crate::report::Refusal;

#[derive(Clone, Copy, Debug, PartialEq, Eq)]
pub enum Error {
    /// The engine refused a step; [`Refusal::advice`] says what to do.
    Refused(Refusal),
    /// The kept log cannot be replayed to its end.
    Stopped(Stopped),
}

impl fmt::Display for Error {
    fn fmt(&self, to: &mut fmt::Formatter) -> fmt::Result {
        match self {
            Error::Refused(refusal) => refusal.fmt(to),
            Error::Stopped(stopped) => stopped.fmt(to),
        }
    }
}

impl std::error::Error for Error {}

impl From<Refusal> for Error {
    fn from(refusal: Refusal) -> Error {
        Error::Refused(refusal)
    }
}

impl From<Stopped> for Error {
    fn from(stopped: Stopped) -> Error {
        Error::Stopped(stopped)
    }
}
