//! Which second does a stored sequence number belong to? slatedb's `SequenceTracker`, over a library of which every function is proved. This crate itself is
//! not proved; it is tested against the library.
//!
//! A table at the default settings (capacity 8,192, interval 10), made by [`SequenceTracker::new`] or [`SequenceTracker::from_bytes`] and by offers alone, and
//! saved by [`SequenceTracker::to_bytes_strict`], cannot come back from bytes that nobody changed other than it was saved without an error, but for its
//! totals, which are then 0: [`Totals`]. The same holds of a table of capacity 8,192 and any interval where
//! [`SequenceTracker::from_bytes_with_interval`] names its interval: the bytes have none. slatedb's default interval is 60; a program that moves over from there
//! names it.
//!
//! ```no_run
//! use skutlaneb::{FindOption, Second, Seq, SequenceTracker, TrackedSeq};
//!
//! # fn main() -> Result<(), Box<dyn std::error::Error>> {
//! let mut tracker = SequenceTracker::new();
//! tracker.insert(TrackedSeq { seq: Seq(100), ts: Second(0) })?;
//! tracker.insert(TrackedSeq { seq: Seq(164), ts: Second(60) })?;
//! let stored = tracker.to_bytes_strict()?;
//! let restored = SequenceTracker::from_bytes(&stored)?;
//! assert_eq!(restored.find_ts(Seq(150), FindOption::RoundDown)?, Some(Second(0)));
//! # Ok(())
//! # }
//! ```
//!
//! A refusal is an [`Error`], with its number in the list of refusals in docs/RULES.md, also where slatedb panics. A refused call leaves the table as it
//! was, but that a pair which is refused with 16 or 17 is counted; [`SequenceTracker::insert_all`] and [`SequenceTracker::extend_from`] keep what came of the
//! pairs before the refused one.
//!
//! Each lookup checks the whole table first. Many questions to one table are asked at once, with one check for all of them, by [`SequenceTracker::find_ts_16`],
//! on a [`Sheet`] of up to sixteen, or by [`SequenceTracker::find_ts_each`], on a list.
//!
//! Why a lookup answers as it does, exactly, rounded or with nothing, is told by [`SequenceTracker::why_ts`] and [`SequenceTracker::why_seq`], as a [`Reason`].
//!
//! A second is written as a date by [`Second::to_rfc3339`] and read from one by [`Second::from_rfc3339`]; [`Rfc3339`] is the date.
//!
//! [`image`] writes and reads images with no table, [`bits`] has the library's calls for bits, and [`sys`] the library's functions as they are.
//!
//! The library is `libskutlaneb.a`, for x86-64; `rt staticlib skutlaneb` in the project's folder writes it. Its calls use no heap; this crate
//! owns the arrays that it lends them.
#![deny(unsafe_code)]

pub mod bits;
#[allow(unsafe_code)]
mod calls;
mod dates;
mod error;
pub mod image;
mod lists;
pub mod sys;
mod times;
mod tracker;
mod values;

pub use dates::Rfc3339;
pub use error::{Array, Error};
pub use lists::{ListError, Tally};
pub use times::NoSystemTime;
pub use tracker::{FindOption, Inserted, Pairs, Reason, SeqSheet, SequenceTracker, Sheet, Totals, TsSheet, Why};
pub use values::{Second, Seq, TrackedSeq};
