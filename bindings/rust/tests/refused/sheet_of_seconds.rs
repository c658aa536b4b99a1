//! A sheet of seconds does not ask by sequence number.
use skutlaneb::{Error, FindOption, SeqSheet, SequenceTracker, TsSheet};

pub fn asked(tracker: &SequenceTracker, sheet: SeqSheet) -> Result<TsSheet, Error> {
    tracker.find_ts_16(sheet, FindOption::RoundUp)
}
