//! A second is no sequence number, also where it is asked why.
use skutlaneb::{Error, FindOption, Second, SequenceTracker, Why};

pub fn asked(tracker: &SequenceTracker, second: Second) -> Result<Why<Second>, Error> {
    tracker.why_ts(second, FindOption::RoundUp)
}
