//! What comes of a list of offers.
use crate::{sys, Error};
use std::fmt;

/// How many of a list's pairs were recorded, and how many skipped, by the reason; [`Inserted`](crate::Inserted) says when each occurs. The three numbers add up to
/// the list's length or, where a pair is refused, to its position: [`ListError::Stopped`]. [`Totals`](crate::Totals) count all offers to a table.
#[derive(Clone, Copy, Debug, Default, PartialEq, Eq, Hash)]
pub struct Tally {
    /// [`Inserted::Recorded`](crate::Inserted::Recorded).
    pub recorded: u64,
    /// [`Inserted::WentBack`](crate::Inserted::WentBack): skipped, as the second is below the last recorded one.
    pub went_back: u64,
    /// [`Inserted::TooSoon`](crate::Inserted::TooSoon): skipped, as the second is not below the last recorded one but less than the interval above it.
    pub too_soon: u64,
}

impl Tally {
    /// How many were skipped, for either reason.
    pub fn skipped(&self) -> u64 {
        self.went_back + self.too_soon
    }
}

impl From<sys::Tally> for Tally {
    fn from(tally: sys::Tally) -> Tally {
        Tally { recorded: tally.recorded as u64, went_back: tally.went_back as u64, too_soon: tally.too_soon as u64 }
    }
}

/// Why a list of offers did not go to its end. Its sentence says where it stopped; [`ListError::why`] and `source` say why.
///
/// A `ListError` becomes an [`Error`], by `?` too, which drops the position. An `Error` becomes a `ListError`, so that a function which restores a table and then offers
/// a list to it has one error type; it says neither at which pair nor of which table it is, so it becomes [`ListError::Apart`], and no position is made up.
#[derive(Clone, Copy, Debug, PartialEq, Eq, Hash)]
pub enum ListError {
    /// The pair at this position, counted from 0, is refused (16, 17, 31). Those before it were offered, and the table keeps what came of them; `before` counts
    /// them. The table's totals count the refusal, too, but for 31.
    Stopped { at: u64, why: Error, before: Tally },
    /// The table itself is bad, and nothing was offered.
    Own(Error),
    /// The table whose pairs were to be offered is bad, and nothing was offered.
    Other(Error),
    /// A call apart from the list was refused. No list answers this: it is what an [`Error`] becomes.
    Apart(Error),
}

impl ListError {
    /// The refusal.
    pub fn why(&self) -> Error {
        *self.inner()
    }

    /// The refusal's number in the list of refusals in docs/RULES.md.
    pub fn number(&self) -> u32 {
        self.inner().number()
    }

    fn inner(&self) -> &Error {
        match self {
            ListError::Stopped { why, .. } | ListError::Own(why) | ListError::Other(why) | ListError::Apart(why) => why,
        }
    }
}

impl From<ListError> for Error {
    fn from(error: ListError) -> Error {
        error.why()
    }
}

impl From<Error> for ListError {
    fn from(error: Error) -> ListError {
        ListError::Apart(error)
    }
}

impl fmt::Display for ListError {
    fn fmt(&self, f: &mut fmt::Formatter<'_>) -> fmt::Result {
        match self {
            ListError::Stopped { at, .. } => write!(f, "pair {at} is refused, and what came of those before it is kept"),
            ListError::Own(_) => f.write_str("nothing was offered, as the table is bad"),
            ListError::Other(_) => f.write_str("nothing was offered, as the other table is bad"),
            ListError::Apart(_) => f.write_str("a call apart from the list was refused"),
        }
    }
}

impl std::error::Error for ListError {
    fn source(&self) -> Option<&(dyn std::error::Error + 'static)> {
        Some(self.inner())
    }
}
