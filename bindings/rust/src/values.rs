//! Sequence numbers and seconds: two types, so that one is not passed as the other.
use std::fmt;

/// A sequence number. It is laid out as the number, so that a slice of them is lent to the library as it stands.
#[derive(Clone, Copy, Debug, PartialEq, Eq, PartialOrd, Ord, Hash)]
#[repr(transparent)]
pub struct Seq(pub u64);

/// Seconds since 1970-01-01T00:00:00Z, negative before it. It is laid out as that number, as a [`Seq`] is, and prints as it; [`Second::to_rfc3339`] gives its
/// date, and [`Second::from_rfc3339`] the second of one.
///
/// A [`SystemTime`](std::time::SystemTime) becomes a `Second` by `from`, and a `Second` one of those by `try_from`. This crate does not depend on chrono.
/// With it, a `DateTime<Utc>` becomes the second that slatedb takes from it, and a second the date that slatedb answers, by these lines:
///
/// ```ignore
/// let second = Second(date.timestamp());
/// let date = DateTime::from_timestamp(second.0, 0); // none where chrono has no such date
/// ```
///
/// By way of `SystemTime` the same comes out, with two exceptions: a leap second becomes the second after it, and `DateTime::from` panics where chrono has no
/// such date, far outside the years 0001 to 9999.
///
/// ```ignore
/// let second = Second::from(SystemTime::from(date));
/// let date = DateTime::<Utc>::from(SystemTime::try_from(second)?);
/// ```
#[derive(Clone, Copy, Debug, PartialEq, Eq, PartialOrd, Ord, Hash)]
#[repr(transparent)]
pub struct Second(pub i64);

/// A sequence number and the second that it belongs to. Pairs are ordered by the sequence number, and those of one sequence number by the second.
#[derive(Clone, Copy, Debug, PartialEq, Eq, PartialOrd, Ord, Hash)]
pub struct TrackedSeq {
    pub seq: Seq,
    pub ts: Second,
}

impl From<u64> for Seq {
    fn from(number: u64) -> Seq {
        Seq(number)
    }
}

impl From<Seq> for u64 {
    fn from(seq: Seq) -> u64 {
        seq.0
    }
}

impl From<i64> for Second {
    fn from(second: i64) -> Second {
        Second(second)
    }
}

impl From<Second> for i64 {
    fn from(second: Second) -> i64 {
        second.0
    }
}

impl From<(u64, i64)> for TrackedSeq {
    fn from((seq, second): (u64, i64)) -> TrackedSeq {
        TrackedSeq { seq: Seq(seq), ts: Second(second) }
    }
}

impl From<TrackedSeq> for (u64, i64) {
    fn from(pair: TrackedSeq) -> (u64, i64) {
        (pair.seq.0, pair.ts.0)
    }
}

impl fmt::Display for Seq {
    fn fmt(&self, f: &mut fmt::Formatter<'_>) -> fmt::Result {
        self.0.fmt(f)
    }
}

impl fmt::Display for Second {
    fn fmt(&self, f: &mut fmt::Formatter<'_>) -> fmt::Result {
        self.0.fmt(f)
    }
}
