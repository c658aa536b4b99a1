//! A pair's two parts do not change places.
use skutlaneb::{Second, Seq, TrackedSeq};

pub fn pair(seq: Seq, ts: Second) -> TrackedSeq {
    TrackedSeq { seq: ts, ts: seq }
}
