//! A sequence number is no second, also where it is a plain u64.
use skutlaneb::{Error, FindOption, Seq, SequenceTracker};

pub fn asked(tracker: &SequenceTracker, seq: u64) -> Result<Option<Seq>, Error> {
    tracker.find_seq(seq, FindOption::RoundUp)
}
