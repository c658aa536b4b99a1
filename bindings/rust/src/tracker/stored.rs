//! Storage: a table as bytes, and bytes as a table.
use super::SequenceTracker;
use crate::calls::{self, done};
use crate::image::most_bytes;
use crate::sys::TableAnswer;
use crate::Error;

impl SequenceTracker {
    /// The table's image, in the bytes that slatedb writes. Where 32 bits do not hold a difference of deltas, those bytes read back as
    /// OTHER pairs, or are refused; [`SequenceTracker::to_bytes_strict`] refuses such a table.
    ///
    /// ```no_run
    /// # use skutlaneb::{SequenceTracker, TrackedSeq};
    /// # fn main() -> Result<(), Box<dyn std::error::Error>> {
    /// let mut tracker = SequenceTracker::new();
    /// tracker.insert(TrackedSeq::from((0, 0)))?;
    /// tracker.insert(TrackedSeq::from((1 << 33, 60)))?;
    /// let other = SequenceTracker::from_bytes(&tracker.to_bytes()?)?;
    /// assert!(other.pairs().eq([(0, 0), (0, 60)].map(TrackedSeq::from)));
    /// assert_eq!(tracker.to_bytes_strict().unwrap_err().number(), 20);
    /// # Ok(())
    /// # }
    /// ```
    pub fn to_bytes(&self) -> Result<Vec<u8>, Error> {
        let mut out = vec![0; most_bytes(self.len())];
        let saved = done(calls::save(self.state, &self.seqs, &self.secs, &mut out))?;
        out.truncate(saved.a as usize);
        Ok(out)
    }

    /// The table's image, or a refusal (20) exactly where it would read back as other pairs.
    ///
    /// The image has the pairs and nothing else. The settings and the last recorded second come back, too, if the capacity is 8,192, if the table was made by
    /// [`SequenceTracker::new`], [`SequenceTracker::with_config`] or the reading of bytes and by offers alone, if nobody changes the bytes, and if
    /// [`SequenceTracker::from_bytes_with_interval`] names the table's interval, or that is 10 and [`SequenceTracker::from_bytes`] reads them. The totals come
    /// back as 0. At another capacity that one does not come back, and the last recorded second need not:
    ///
    /// ```no_run
    /// # use skutlaneb::{Second, SequenceTracker, TrackedSeq};
    /// # fn main() -> Result<(), Box<dyn std::error::Error>> {
    /// let mut tracker = SequenceTracker::with_config(3, 0)?;
    /// tracker.insert_all(&[(1, 10), (2, 20), (3, 30), (4, 40)].map(TrackedSeq::from))?;
    /// assert_eq!(tracker.last_recorded(), Some(Second(40))); // and the pairs are (1, 10), (3, 30)
    /// let other = SequenceTracker::from_bytes(&tracker.to_bytes_strict()?)?;
    /// assert!(other.pairs().eq(tracker.pairs()));
    /// assert_eq!(other.last_recorded(), Some(Second(30)));
    /// assert_eq!((other.capacity(), other.interval_secs()), (8192, 10));
    /// # Ok(())
    /// # }
    /// ```
    pub fn to_bytes_strict(&self) -> Result<Vec<u8>, Error> {
        let mut out = vec![0; most_bytes(self.len())];
        let saved = done(calls::save_strict(self.state, &self.seqs, &self.secs, &mut out))?;
        out.truncate(saved.a as usize);
        Ok(out)
    }

    /// The table of an image, of capacity 8,192 and interval 10; its last recorded second is the last one kept, and its totals are 0. Refused by 1 to 13; by 10
    /// where it has more than 8,192 pairs. 4 to 8 tell where the bytes stop: [`Error::place`]. Bytes after the image are ignored. Needs 130 KB of stack. The
    /// interval that slatedb's `from_bytes` gives is 60: [`SequenceTracker::from_bytes_with_interval`] takes it.
    ///
    /// The image has no checksum. Bytes that were changed in storage are refused, or read as the table of which they are the image:
    ///
    /// ```no_run
    /// # use skutlaneb::{SequenceTracker, TrackedSeq};
    /// # fn main() -> Result<(), Box<dyn std::error::Error>> {
    /// let mut tracker = SequenceTracker::new();
    /// tracker.insert_all(&[(100, 0), (164, 60)].map(TrackedSeq::from))?;
    /// let mut bytes = tracker.to_bytes_strict()?;
    /// bytes[16] ^= 1;
    /// assert!(SequenceTracker::from_bytes(&bytes)?.pairs().eq([(101, 0), (165, 60)].map(TrackedSeq::from)));
    /// # Ok(())
    /// # }
    /// ```
    pub fn from_bytes(bytes: &[u8]) -> Result<SequenceTracker, Error> {
        SequenceTracker::restored(|seqs, secs| calls::restore(bytes, seqs, secs))
    }

    /// The same with the interval that is named: refused by 15, before all else, where that is above 2^63-1. The image has no interval, so name the one that the
    /// table had. With another one the same pairs come back, but what is offered next may be recorded where it was skipped, or skipped where it was recorded:
    ///
    /// ```no_run
    /// # use skutlaneb::{Inserted, SequenceTracker, TrackedSeq};
    /// # fn main() -> Result<(), Box<dyn std::error::Error>> {
    /// let mut tracker = SequenceTracker::with_config(8192, 60)?;
    /// tracker.insert(TrackedSeq::from((5, 100)))?;
    /// let bytes = tracker.to_bytes_strict()?;
    /// assert_eq!(SequenceTracker::from_bytes_with_interval(&bytes, 60)?, tracker);
    /// let mut other = SequenceTracker::from_bytes(&bytes)?; // of interval 10
    /// assert_eq!(tracker.insert(TrackedSeq::from((6, 110)))?, Inserted::TooSoon);
    /// assert_eq!(other.insert(TrackedSeq::from((6, 110)))?, Inserted::Recorded);
    /// # Ok(())
    /// # }
    /// ```
    pub fn from_bytes_with_interval(bytes: &[u8], interval_secs: u64) -> Result<SequenceTracker, Error> {
        SequenceTracker::restored(|seqs, secs| calls::restore_with_interval(bytes, seqs, secs, interval_secs))
    }

    /// What a restore makes, in arrays of the capacity that it gives, which is the default one.
    fn restored(restore: impl FnOnce(&mut [u64], &mut [i64]) -> TableAnswer) -> Result<SequenceTracker, Error> {
        let mut tracker = SequenceTracker::new();
        let answer = restore(&mut tracker.seqs, &mut tracker.secs);
        done(answer.answer)?;
        tracker.state = answer.state;
        Ok(tracker)
    }
}

/// By [`SequenceTracker::from_bytes`].
impl TryFrom<&[u8]> for SequenceTracker {
    type Error = Error;

    fn try_from(bytes: &[u8]) -> Result<SequenceTracker, Error> {
        SequenceTracker::from_bytes(bytes)
    }
}
