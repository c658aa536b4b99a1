// Before, with slatedb's src/seq_tracker.rs: use crate::seq_tracker::{FindOption, SequenceTracker, TrackedSeq};
use skutlaneb::{FindOption, Inserted, Second, Seq, SequenceTracker, TrackedSeq};

fn main() -> Result<(), Box<dyn std::error::Error>> {
    // Before: SequenceTracker::new(). slatedb's default interval is 60 seconds and this crate's is 10, so 60 is named, here and where bytes are read.
    let mut tracker = SequenceTracker::with_config(8192, 60)?;
    for (seq, second) in [(100, 0), (164, 60), (230, 125)] {
        // Where slatedb's `insert` panics, this one answers an error.
        tracker.insert(TrackedSeq { seq: Seq(seq), ts: Second(second) })?;
    }

    // Where slatedb's `insert` passes over a pair and says nothing, this one says why.
    if tracker.insert(TrackedSeq { seq: Seq(231), ts: Second(65) })? == Inserted::WentBack {
        println!("second 65 went back: is a clock behind?");
    }

    // `to_bytes` writes the same bytes as slatedb. `to_bytes_strict` does, too, but refuses pairs that they would bring back as other pairs.
    let stored = tracker.to_bytes_strict()?;
    // Before: SequenceTracker::from_bytes(&stored). The bytes have no interval.
    let mut restored = SequenceTracker::from_bytes_with_interval(&stored, 60)?;
    if let Some(second) = restored.find_ts(200, FindOption::RoundDown)? {
        println!("sequence 200 was written in second {second} or later");
    }

    // The last recorded second is 125. At this crate's default interval, 10, the pair would be recorded.
    println!("second 170: {:?}", restored.insert(TrackedSeq { seq: Seq(231), ts: Second(170) })?);

    // Bytes that were cut short are refused, with the number of the list of refusals and a sentence.
    if let Err(error) = SequenceTracker::from_bytes_with_interval(&stored[..stored.len() - 1], 60) {
        println!("refused {}: {error}", error.number());
    }
    Ok(())
}
