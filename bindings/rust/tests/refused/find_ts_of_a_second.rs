//! A second is no sequence number.
use skutlaneb::{Error, FindOption, Second, SequenceTracker};

pub fn asked(tracker: &SequenceTracker, second: Second) -> Result<Option<Second>, Error> {
    tracker.find_ts(second, FindOption::RoundUp)
}
