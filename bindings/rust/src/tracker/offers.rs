//! Offers, one by one and in lists.
use super::SequenceTracker;
use crate::calls;
use crate::sys::{self, TableAnswer};
use crate::{Error, ListError, Tally, TrackedSeq};

/// What came of an offered pair. It is recorded, or it is skipped, for one of two reasons; skipped, it leaves the table as it was, but that it is counted:
/// [`SequenceTracker::totals`].
///
/// The last recorded second decides, [`SequenceTracker::last_recorded`]. Its pair need not be kept any more, so that a pair may have gone back whose second is above
/// all that are kept. Before a second was recorded no pair is skipped.
#[derive(Clone, Copy, Debug, PartialEq, Eq, Hash)]
pub enum Inserted {
    /// It was recorded, and its second is the last recorded one. If there were too many pairs, every second one was dropped: at an odd capacity, and at 0
    /// where a pair stood already, this one too.
    Recorded,
    /// It was skipped, as its second is below the last recorded one: a clock may be behind, or one before it was ahead.
    WentBack,
    /// It was skipped, as its second is not below the last recorded one but less than the interval above it. At interval 0 this does not occur.
    TooSoon,
}

impl Inserted {
    /// The outcome of an offer that was not refused: one number is 1, and the others are 0.
    fn of(tally: &sys::Tally) -> Inserted {
        if tally.went_back != 0 {
            Inserted::WentBack
        } else if tally.too_soon != 0 {
            Inserted::TooSoon
        } else {
            Inserted::Recorded
        }
    }
}

impl SequenceTracker {
    /// Offers a pair. It is refused where its second is outside the years 0001 to 9999 (16), and where it is not skipped and its sequence is below the last
    /// kept one (17), at which slatedb panics. Both are counted, [`SequenceTracker::totals`], and else the table is as it was, and goes on. Before them comes
    /// the refusal of an offer that cannot be counted, as 2^64-1 are (31).
    ///
    /// ```no_run
    /// # use skutlaneb::{Inserted, SequenceTracker, TrackedSeq};
    /// # fn main() -> Result<(), Box<dyn std::error::Error>> {
    /// let mut tracker = SequenceTracker::with_config(8192, 60)?;
    /// assert_eq!(tracker.insert(TrackedSeq::from((1, 100)))?, Inserted::Recorded);
    /// assert_eq!(tracker.insert(TrackedSeq::from((2, 159)))?, Inserted::TooSoon);
    /// assert_eq!(tracker.insert(TrackedSeq::from((2, 99)))?, Inserted::WentBack);
    /// assert_eq!(tracker.insert(TrackedSeq::from((2, 160)))?, Inserted::Recorded);
    /// # Ok(())
    /// # }
    /// ```
    pub fn insert(&mut self, pair: TrackedSeq) -> Result<Inserted, Error> {
        let answer = calls::offer(self.state, &mut self.seqs, &mut self.secs, pair.seq.0, pair.ts.0);
        let refused = Error::of(&answer.answer);
        // With 16 and 17 comes the state that counts the refusal; with the others none.
        if matches!(refused, None | Some(Error::OfferedOutside | Error::OfferedDrops)) {
            self.state = answer.state;
        }
        refused.map_or(Ok(Inserted::of(&answer.tally)), Err)
    }

    /// Offers pairs in order, up to the first that is refused (16, 17, 31); those before it are kept. The table is checked once, which makes this faster than
    /// [`SequenceTracker::insert`] for each.
    ///
    /// There is neither an `Extend` nor a `FromIterator` of pairs: neither can tell that a pair was refused, and where.
    pub fn insert_all(&mut self, pairs: &[TrackedSeq]) -> Result<Tally, ListError> {
        let from_seqs: Vec<u64> = pairs.iter().map(|pair| pair.seq.0).collect();
        let from_secs: Vec<i64> = pairs.iter().map(|pair| pair.ts.0).collect();
        let answer = calls::offer_pairs(self.state, &mut self.seqs, &mut self.secs, (&from_seqs, &from_secs));
        self.listed(answer)
    }

    /// Offers the pairs that another table keeps, in order, up to the first that is refused (17, 31).
    pub fn extend_from(&mut self, other: &SequenceTracker) -> Result<Tally, ListError> {
        let answer = calls::extend_from(self.state, &mut self.seqs, &mut self.secs, other.state, (&other.seqs, &other.secs));
        self.listed(answer)
    }

    /// What came of a list. Only a refusal of a record (16, 17, 31) comes with a state.
    fn listed(&mut self, answer: TableAnswer) -> Result<Tally, ListError> {
        let tally = Tally::from(answer.tally);
        let told = answer.answer;
        match Error::of(&told) {
            None => {
                self.state = answer.state;
                Ok(tally)
            }
            Some(why @ (Error::OfferedOutside | Error::OfferedDrops | Error::TotalsFull)) => {
                self.state = answer.state;
                Err(ListError::Stopped { at: told.a, why, before: tally })
            }
            Some(why) => {
                let which = if why == Error::StateDisagrees { told.a } else { told.b };
                Err(if which == 0 { ListError::Own(why) } else { ListError::Other(why) })
            }
        }
    }
}
