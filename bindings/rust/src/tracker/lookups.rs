//! Lookups.
use super::SequenceTracker;
use crate::calls::{self, done};
use crate::{Error, Second, Seq};

/// Which of the kept keys answers a lookup.
#[derive(Clone, Copy, Debug, PartialEq, Eq, Hash)]
pub enum FindOption {
    /// The first that is not below the one asked for: of equal keys the one at the lowest position; where none is equal, the first greater.
    RoundUp,
    /// The last that is not above the one asked for: of equal keys the one at the highest position; where none is equal, the last smaller.
    RoundDown,
}

impl FindOption {
    pub(super) fn number(self) -> u32 {
        match self {
            FindOption::RoundUp => 0,
            FindOption::RoundDown => 1,
        }
    }
}

impl SequenceTracker {
    /// The second of a sequence number. Among equal sequences the first one kept answers with `RoundUp`, the last one with `RoundDown`. slatedb promises some
    /// one of them. [`SequenceTracker::why_ts`] gives the same answer, and why it is that.
    ///
    /// # What a lookup costs
    ///
    /// Each one checks the whole table first, some 8 instructions for each kept pair. In 8,192 pairs it takes some 230 times the instructions of slatedb's, in
    /// 512 some 17 times; in one pair as many and a seventh, or 5 times where slatedb finds nothing (docs/SPEED.md). What to do about it:
    ///
    /// - Ask many questions of one table at once: [`SequenceTracker::find_ts_16`] takes up to sixteen and [`SequenceTracker::find_ts_each`] any number. Each
    ///   checks the table once for all of them, and answers every one as this call does. 100,000 in one list take a quarter to a half of slatedb's instructions.
    /// - Look up rarely: keep an answer that is asked for again, until the next offer.
    /// - Keep the table small, by a smaller capacity; but storage brings a table back with capacity 8,192.
    pub fn find_ts(&self, seq: impl Into<Seq>, opt: FindOption) -> Result<Option<Second>, Error> {
        let found = done(calls::find_ts(self.state, &self.seqs, &self.secs, seq.into().0, opt.number()))?;
        Ok((found.a == 1).then_some(Second(found.b as i64)))
    }

    /// The sequence number of a second. Among equal seconds the first one kept answers with `RoundUp`, the last one with `RoundDown`: what stood as of a second is
    /// asked for with `RoundDown`. It costs what [`SequenceTracker::find_ts`] costs; [`SequenceTracker::find_seq_16`] and [`SequenceTracker::find_seq_each`] ask
    /// many questions at once, and [`SequenceTracker::why_seq`] tells why.
    pub fn find_seq(&self, ts: impl Into<Second>, opt: FindOption) -> Result<Option<Seq>, Error> {
        let found = done(calls::find_seq(self.state, &self.seqs, &self.secs, ts.into().0, opt.number()))?;
        Ok((found.a == 1).then_some(Seq(found.b)))
    }
}
