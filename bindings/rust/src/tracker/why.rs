//! Why a lookup answers as it does.
use super::{FindOption, SequenceTracker};
use crate::calls::{self, done};
use crate::sys::WhyAnswer;
use crate::{Error, Second, Seq};
use std::fmt;

/// Why a lookup answers as it does. Each question has exactly one reason: with the first three a pair answers, with the others none. Positions count the kept pairs
/// from 0: [`SequenceTracker::pairs`] has them in this order.
///
/// It prints as the program `why` has it: `exact POSITION`, `rounded-up BELOW ABOVE`, `rounded-down BELOW ABOVE`, `before-first`, `after-last` or `empty`. Where a
/// neighbour is not there, `none` stands for its position.
#[derive(Clone, Copy, Debug, PartialEq, Eq, Hash)]
pub enum Reason {
    /// A kept key equals the one asked for, and the pair at this position answers: of several equal ones the lowest with [`FindOption::RoundUp`], the highest with
    /// [`FindOption::RoundDown`].
    Exact { position: usize },
    /// No kept key equals the one asked for, and the pair at `above` answers, whose key is the first greater one. `below` is the position before it, that of the last
    /// smaller key; there is none where the one asked for is below the first.
    RoundedUp { below: Option<usize>, above: usize },
    /// No kept key equals the one asked for, and the pair at `below` answers, whose key is the last smaller one. `above` is the position after it, that of the first
    /// greater key; there is none where the one asked for is above the last.
    RoundedDown { below: usize, above: Option<usize> },
    /// With [`FindOption::RoundDown`]: all kept keys are greater than the one asked for.
    BeforeFirst,
    /// With [`FindOption::RoundUp`]: all kept keys are smaller than the one asked for.
    AfterLast,
    /// The table keeps no pair.
    Empty,
}

impl Reason {
    /// The reason that an answer of [`crate::sys`] tells, or its refusal. An answer of which no reason can be made is none of the library's, and is told as
    /// [`Error::Unlisted`], with the reason's number.
    pub fn of(why: &WhyAnswer) -> Result<Reason, Error> {
        let answered = done(why.answer)?.a == 1;
        let (below, above) = ((why.has_below == 1).then_some(why.below), (why.has_above == 1).then_some(why.above));
        Ok(match (why.reason, answered, below, above) {
            (1, true, None, None) => Reason::Exact { position: why.position },
            (2, true, below, Some(above)) => Reason::RoundedUp { below, above },
            (3, true, Some(below), above) => Reason::RoundedDown { below, above },
            (4, false, None, None) => Reason::BeforeFirst,
            (5, false, None, None) => Reason::AfterLast,
            (6, false, None, None) => Reason::Empty,
            (number, ..) => return Err(Error::Unlisted { number }),
        })
    }
}

impl fmt::Display for Reason {
    fn fmt(&self, f: &mut fmt::Formatter<'_>) -> fmt::Result {
        match self {
            Reason::Exact { position } => write!(f, "exact {position}"),
            Reason::RoundedUp { below: Some(below), above } => write!(f, "rounded-up {below} {above}"),
            Reason::RoundedUp { below: None, above } => write!(f, "rounded-up none {above}"),
            Reason::RoundedDown { below, above: Some(above) } => write!(f, "rounded-down {below} {above}"),
            Reason::RoundedDown { below, above: None } => write!(f, "rounded-down {below} none"),
            Reason::BeforeFirst => f.write_str("before-first"),
            Reason::AfterLast => f.write_str("after-last"),
            Reason::Empty => f.write_str("empty"),
        }
    }
}

/// A lookup's answer, and why it is that: what [`SequenceTracker::why_ts`] and [`SequenceTracker::why_seq`] give.
#[derive(Clone, Copy, Debug, PartialEq, Eq, Hash)]
pub struct Why<A> {
    /// Why the answer is what it is.
    pub reason: Reason,
    /// What the lookup answers to the same question: [`SequenceTracker::find_ts`] or [`SequenceTracker::find_seq`].
    pub answer: Option<A>,
}

impl SequenceTracker {
    /// The second of a sequence number, as [`SequenceTracker::find_ts`] answers it, and why it is that one. It is refused as that is, and takes some 20 to 80
    /// instructions more (docs/SPEED.md).
    ///
    /// ```no_run
    /// # use skutlaneb::{FindOption, Reason, Second, SequenceTracker, TrackedSeq, Why};
    /// # fn main() -> Result<(), Box<dyn std::error::Error>> {
    /// let mut tracker = SequenceTracker::new();
    /// tracker.insert_all(&[(100, 0), (164, 60)].map(TrackedSeq::from))?;
    /// let why = tracker.why_ts(150, FindOption::RoundDown)?;
    /// assert_eq!(why, Why { reason: Reason::RoundedDown { below: 0, above: Some(1) }, answer: Some(Second(0)) });
    /// assert_eq!(why.reason.to_string(), "rounded-down 0 1");
    /// assert_eq!(tracker.why_ts(164, FindOption::RoundDown)?.reason, Reason::Exact { position: 1 });
    /// // Nothing is answered, and the reason says which end of the table the question is beyond.
    /// assert_eq!(tracker.why_ts(99, FindOption::RoundDown)?, Why { reason: Reason::BeforeFirst, answer: None });
    /// assert_eq!(tracker.why_ts(165, FindOption::RoundUp)?, Why { reason: Reason::AfterLast, answer: None });
    /// # Ok(())
    /// # }
    /// ```
    pub fn why_ts(&self, seq: impl Into<Seq>, opt: FindOption) -> Result<Why<Second>, Error> {
        let why = calls::why_ts(self.state, &self.seqs, &self.secs, seq.into().0, opt.number());
        Ok(Why { reason: Reason::of(&why)?, answer: (why.answer.a == 1).then_some(Second(why.answer.b as i64)) })
    }

    /// The sequence number of a second, as [`SequenceTracker::find_seq`] answers it, and why it is that one: as [`SequenceTracker::why_ts`], by second.
    pub fn why_seq(&self, ts: impl Into<Second>, opt: FindOption) -> Result<Why<Seq>, Error> {
        let why = calls::why_seq(self.state, &self.seqs, &self.secs, ts.into().0, opt.number());
        Ok(Why { reason: Reason::of(&why)?, answer: (why.answer.a == 1).then_some(Seq(why.answer.b)) })
    }
}
