//! The table.
mod lookups;
mod offers;
mod pairs;
mod questions;
mod stored;
mod totals;
mod why;

use crate::calls;
use crate::sys::State;
use crate::{Error, Second};
use std::fmt;

pub use lookups::FindOption;
pub use offers::Inserted;
pub use pairs::Pairs;
pub use questions::{SeqSheet, Sheet, TsSheet};
pub use totals::Totals;
pub use why::{Reason, Why};

/// Which second a sequence number belongs to, and which sequence number a second.
///
/// The table keeps pairs of the two, both in order, in arrays of its own. A pair whose second is below the last recorded one, or less than the interval
/// above it, is skipped, and [`Inserted`] says which it was; where more pairs than the capacity would stand, every second one is dropped.
///
/// # Storage
///
/// A table of capacity 8,192 and any interval, made by [`SequenceTracker::new`], [`SequenceTracker::with_config`] or the reading of bytes and by offers alone, is
/// refused by [`SequenceTracker::to_bytes_strict`], or its bytes, if nobody changes them, come back with the same pairs, settings and last recorded second,
/// where [`SequenceTracker::from_bytes_with_interval`] names the table's own interval; at the default one, 10, [`SequenceTracker::from_bytes`] does that.
/// Where one of these conditions fails, another table may come back without an error: the four calls of storage have an example each. The bytes never have the
/// totals: [`Totals`].
///
/// # How coarse an old answer may be
///
/// At an even capacity from 2 up the first recorded pair and the newest are always kept, and two neighbouring pairs may stand further apart the further back
/// they lie: at capacity 8,192 at most 2 recorded pairs where at most 4,096 were recorded after the older, at most 4 where at most 8,192 were, and twice as many
/// with each 4,096 more. A table read from bytes starts a fresh count, in which the pairs read are taken as recorded. The project's README has the table, what it
/// means for lookups, and how the number of halvings is had from [`Totals::recorded`].
///
/// # What a call costs
///
/// Every offer, lookup and save checks the whole table and is refused where the check fails, so that a wrong answer is not given in silence. The check takes
/// some 8 instructions for each kept pair. Of lookups, [`SequenceTracker::find_ts`] says what that comes to and what to do about it. Of many at once the table is
/// checked once: of a list of offers by [`SequenceTracker::insert_all`], of questions by [`SequenceTracker::find_ts_16`] and [`SequenceTracker::find_ts_each`].
///
/// # Clones and `==`
///
/// A clone has the same pairs, settings, last recorded second and totals, in arrays of its own, which take 16 bytes for each place of the capacity: 128 KiB at
/// the default one. `==` compares the pairs and the settings, as in slatedb, and neither the last recorded second nor the totals. Two equal tables may thus
/// answer the same offer differently, where the pair last recorded is not kept any more.
#[derive(Clone)]
pub struct SequenceTracker {
    state: State,
    seqs: Vec<u64>,
    secs: Vec<i64>,
}

impl SequenceTracker {
    /// An empty table of capacity 8,192 and an interval of 10 seconds. slatedb's default interval is 60: `with_config(8192, 60)` has the settings of slatedb's
    /// `new`.
    pub fn new() -> SequenceTracker {
        SequenceTracker::empty(calls::new().state)
    }

    /// An empty table with other settings: refused (15) where the capacity is above 8,192 or the interval above 2^63-1. Storage keeps neither: a table comes back
    /// with capacity 8,192, and with the interval that [`SequenceTracker::from_bytes_with_interval`] names, or 10 by [`SequenceTracker::from_bytes`].
    /// [`SequenceTracker::to_bytes_strict`] has an example.
    pub fn with_config(capacity: u32, interval_secs: u64) -> Result<SequenceTracker, Error> {
        let made = calls::with_config(capacity, interval_secs);
        calls::done(made.answer)?;
        Ok(SequenceTracker::empty(made.state))
    }

    fn empty(state: State) -> SequenceTracker {
        // A table has one place at least, also at capacity 0.
        let places = state.capacity.max(1) as usize;
        SequenceTracker { state, seqs: vec![0; places], secs: vec![0; places] }
    }

    /// Whether the table is good: 14, 11, 12, 13. No call of this crate makes one that is not; a refusal tells that other code wrote to its memory.
    pub fn check(&self) -> Result<(), Error> {
        calls::done(calls::check(self.state, &self.seqs, &self.secs)).map(|_| ())
    }

    /// The number of pairs that the table keeps.
    pub fn len(&self) -> usize {
        self.state.count
    }

    /// Whether the table keeps no pair.
    pub fn is_empty(&self) -> bool {
        self.len() == 0
    }

    /// The most pairs that the table keeps; one, if it is 0.
    pub fn capacity(&self) -> u32 {
        self.state.capacity
    }

    /// The seconds that have to pass between two recorded pairs.
    pub fn interval_secs(&self) -> u64 {
        self.state.interval_secs
    }

    /// The last second that was recorded; its pair need not be kept any more.
    pub fn last_recorded(&self) -> Option<Second> {
        (self.state.has_last != 0).then_some(Second(self.state.last))
    }
}

impl Default for SequenceTracker {
    fn default() -> SequenceTracker {
        SequenceTracker::new()
    }
}

/// By the kept pairs and the settings, as in slatedb: neither the last recorded second nor the totals matter.
impl PartialEq for SequenceTracker {
    fn eq(&self, other: &SequenceTracker) -> bool {
        self.pairs().eq(other.pairs()) && self.capacity() == other.capacity() && self.interval_secs() == other.interval_secs()
    }
}

impl Eq for SequenceTracker {}

impl fmt::Debug for SequenceTracker {
    fn fmt(&self, f: &mut fmt::Formatter<'_>) -> fmt::Result {
        f.debug_struct("SequenceTracker")
            .field("pairs", &self.pairs().map(<(u64, i64)>::from).collect::<Vec<_>>())
            .field("capacity", &self.capacity())
            .field("interval_secs", &self.interval_secs())
            .field("last_recorded", &self.last_recorded().map(i64::from))
            .field("totals", &self.totals())
            .finish()
    }
}
