//! How many offers a table has counted.
use super::SequenceTracker;
use crate::sys;

/// How many offers a table has counted since it was made or read from bytes, by what became of each: what [`SequenceTracker::totals`] gives. A pair of a list
/// is an offer, too. All are counted but those refused with 14, 11, 12, 13 or 31, so that the four numbers add up to the number of offers counted, which is at
/// most 2^64-1.
///
/// The bytes of a table do not have them: [`SequenceTracker::from_bytes`] and [`SequenceTracker::from_bytes_with_interval`] set them to 0, as
/// [`SequenceTracker::new`] and [`SequenceTracker::with_config`] do.
#[derive(Clone, Copy, Debug, Default, PartialEq, Eq, Hash)]
pub struct Totals {
    /// [`Inserted::Recorded`](crate::Inserted::Recorded). The pair need not be kept any more.
    pub recorded: u64,
    /// [`Inserted::WentBack`](crate::Inserted::WentBack): skipped, as the second was below the last recorded one.
    pub went_back: u64,
    /// [`Inserted::TooSoon`](crate::Inserted::TooSoon): skipped, as the second was not below the last recorded one but less than the interval above it.
    pub too_soon: u64,
    /// Refused with 16 or 17: [`Error::OfferedOutside`](crate::Error::OfferedOutside) or [`Error::OfferedDrops`](crate::Error::OfferedDrops).
    pub refused: u64,
}

impl From<sys::Totals> for Totals {
    fn from(totals: sys::Totals) -> Totals {
        Totals { recorded: totals.recorded, went_back: totals.went_back, too_soon: totals.too_soon, refused: totals.refused }
    }
}

impl SequenceTracker {
    /// How many offers were recorded, skipped, by the reason, and refused with 16 or 17, since the table was made or read from bytes.
    ///
    /// ```no_run
    /// # use skutlaneb::{SequenceTracker, Totals, TrackedSeq};
    /// # fn main() -> Result<(), Box<dyn std::error::Error>> {
    /// let mut tracker = SequenceTracker::with_config(8192, 60)?;
    /// tracker.insert_all(&[(5, 100), (6, 99), (6, 159), (6, 160)].map(TrackedSeq::from))?;
    /// assert_eq!(tracker.insert(TrackedSeq::from((4, 220))).unwrap_err().number(), 17);
    /// assert_eq!(tracker.totals(), Totals { recorded: 2, went_back: 1, too_soon: 1, refused: 1 });
    /// let other = SequenceTracker::from_bytes_with_interval(&tracker.to_bytes_strict()?, 60)?;
    /// assert_eq!(other.totals(), Totals::default());
    /// # Ok(())
    /// # }
    /// ```
    pub fn totals(&self) -> Totals {
        Totals::from(self.state.totals)
    }
}
