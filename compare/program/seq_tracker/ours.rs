//! Our side: the static library's functions. A slice crosses as a pointer and a length.
use super::lent::Lent;

/// The declarations of the Rust crate.
#[path = "../../../bindings/rust/src/sys.rs"]
mod linked;

/// What the library calls a tally has another name here, where a `Tally` counts comparisons.
pub use linked::{Answer, State, TableAnswer, Tally as Counts, Totals};
pub use linked::{SeqAnswer, SeqSheet, SeqSheetAnswer, TsAnswer, TsSheet, TsSheetAnswer, WhyAnswer};

/// Number 0, and nothing more. What tells less than an answer can is 0 in the rest of it.
pub const OK: Answer = Answer { number: 0, a: 0, b: 0, c: 0, byte: 0, bit: 0 };

/// What is returned where no offer was made.
pub const NO_OFFERS: Counts = Counts { recorded: 0, went_back: 0, too_soon: 0 };

/// The totals of a table just made or restored, by the rules (docs/RULES.md).
pub const NO_TOTALS: Totals = Totals { recorded: 0, went_back: 0, too_soon: 0, refused: 0 };

/// The interval of `skut_new` and of `skut_restore`, by the rules (docs/RULES.md). slatedb's is another.
pub const SKUT_INTERVAL_SECS: u64 = 10;

/// What is returned where there is no state: every call refuses it.
pub const NO_STATE: State = State { count: 0, capacity: u32::MAX, has_last: 0, interval_secs: 0, last: 0, totals: NO_TOTALS };

pub fn sign_extend(val: u32, bits: u8) -> Answer {
    unsafe { linked::skut_sign_extend(val, bits) }
}

pub fn read_bits(s: &[u8], byte: usize, bit: u8, width: u8) -> Answer {
    unsafe { linked::skut_read_bits(s.as_ptr(), s.len(), byte, bit, width) }
}

pub fn write_bits(buf: &mut Lent<u8>, byte: usize, bit: u8, value: u64, width: u8) -> Answer {
    let (p, n) = buf.of_mut();
    unsafe { linked::skut_write_bits(p, n, byte, bit, value, width) }
}

pub fn write_date(sec: i64, out: &mut Lent<u8>) -> Answer {
    let (p, n) = out.of_mut();
    unsafe { linked::skut_write_date(sec, p, n) }
}

pub fn read_date(bytes: &[u8]) -> Answer {
    unsafe { linked::skut_read_date(bytes.as_ptr(), bytes.len()) }
}

pub fn encoded_len(seqs: &[u64], secs: &[i64]) -> Answer {
    unsafe { linked::skut_encoded_len(seqs.as_ptr(), seqs.len(), secs.as_ptr(), secs.len()) }
}

pub fn encode(strict: bool, seqs: &[u64], secs: &[i64], out: &mut Lent<u8>) -> Answer {
    let ((p, n), (q, m), (o, k)) = ((seqs.as_ptr(), seqs.len()), (secs.as_ptr(), secs.len()), out.of_mut());
    unsafe {
        if strict { linked::skut_encode_strict(p, n, q, m, o, k) } else { linked::skut_encode(p, n, q, m, o, k) }
    }
}

pub fn decode(bytes: &[u8], seqs: &mut Lent<u64>, secs: &mut Lent<i64>) -> Answer {
    let ((p, n), (q, m)) = (seqs.of_mut(), secs.of_mut());
    unsafe { linked::skut_decode(bytes.as_ptr(), bytes.len(), p, n, q, m) }
}

pub fn image_len(bytes: &[u8]) -> Answer {
    unsafe { linked::skut_image_len(bytes.as_ptr(), bytes.len()) }
}

pub fn new() -> TableAnswer {
    unsafe { linked::skut_new() }
}

pub fn with_config(capacity: u32, interval_secs: u64) -> TableAnswer {
    unsafe { linked::skut_with_config(capacity, interval_secs) }
}

/// A table of ours: its state and the arrays that are lent with it, and the totals that the state should have. These are the comparison's own count: what
/// the table began with, and each offer since, by what the Rust made of it.
#[derive(Clone)]
pub struct Table {
    pub state: State,
    pub seqs: Lent<u64>,
    pub secs: Lent<i64>,
    pub due: Totals,
}

/// A state but for its totals, of which the Rust has none.
pub fn but_totals(state: State) -> State {
    State { totals: NO_TOTALS, ..state }
}

/// An answer but for the totals of its state.
pub fn told_but_totals(said: TableAnswer) -> TableAnswer {
    TableAnswer { state: but_totals(said.state), ..said }
}

impl Table {
    /// The same table with other totals.
    pub fn with_totals(&self, totals: Totals) -> Table {
        Table { state: State { totals, ..self.state }, due: totals, ..self.clone() }
    }

    /// The kept pairs.
    pub fn kept(&self) -> (&[u64], &[i64]) {
        (&self.seqs.places()[..self.state.count], &self.secs.places()[..self.state.count])
    }

    pub fn check(&self) -> Answer {
        let ((p, n), (q, m)) = (self.seqs.of(), self.secs.of());
        unsafe { linked::skut_check(self.state, p, n, q, m) }
    }

    pub fn offer(&mut self, seq: u64, sec: i64) -> TableAnswer {
        let ((p, n), (q, m)) = (self.seqs.of_mut(), self.secs.of_mut());
        unsafe { linked::skut_offer(self.state, p, n, q, m, seq, sec) }
    }

    pub fn offer_pairs(&mut self, seqs: &[u64], secs: &[i64]) -> TableAnswer {
        let ((p, n), (q, m)) = (self.seqs.of_mut(), self.secs.of_mut());
        unsafe { linked::skut_offer_pairs(self.state, p, n, q, m, seqs.as_ptr(), seqs.len(), secs.as_ptr(), secs.len()) }
    }

    pub fn extend_from(&mut self, other: &Table) -> TableAnswer {
        let ((p, n), (q, m)) = (self.seqs.of_mut(), self.secs.of_mut());
        let ((r, i), (s, j)) = (other.seqs.of(), other.secs.of());
        unsafe { linked::skut_extend_from(self.state, p, n, q, m, other.state, r, i, s, j) }
    }

    pub fn find_ts(&self, seq: u64, round: u32) -> Answer {
        let ((p, n), (q, m)) = (self.seqs.of(), self.secs.of());
        unsafe { linked::skut_find_ts(self.state, p, n, q, m, seq, round) }
    }

    pub fn find_seq(&self, sec: i64, round: u32) -> Answer {
        let ((p, n), (q, m)) = (self.seqs.of(), self.secs.of());
        unsafe { linked::skut_find_seq(self.state, p, n, q, m, sec, round) }
    }

    pub fn find_ts_16(&self, sheet: TsSheet, round: u32) -> TsSheetAnswer {
        let ((p, n), (q, m)) = (self.seqs.of(), self.secs.of());
        unsafe { linked::skut_find_ts_16(self.state, p, n, q, m, sheet, round) }
    }

    pub fn find_seq_16(&self, sheet: SeqSheet, round: u32) -> SeqSheetAnswer {
        let ((p, n), (q, m)) = (self.seqs.of(), self.secs.of());
        unsafe { linked::skut_find_seq_16(self.state, p, n, q, m, sheet, round) }
    }

    pub fn find_ts_each(&self, keys: &Lent<u64>, answers: &mut Lent<i64>, found: &mut Lent<u8>, round: u32) -> Answer {
        let ((p, n), (q, m)) = (self.seqs.of(), self.secs.of());
        let ((x, i), (y, j), (z, k)) = (keys.of(), answers.of_mut(), found.of_mut());
        unsafe { linked::skut_find_ts_each(self.state, p, n, q, m, x, i, y, j, z, k, round) }
    }

    pub fn find_seq_each(&self, keys: &Lent<i64>, answers: &mut Lent<u64>, found: &mut Lent<u8>, round: u32) -> Answer {
        let ((p, n), (q, m)) = (self.seqs.of(), self.secs.of());
        let ((x, i), (y, j), (z, k)) = (keys.of(), answers.of_mut(), found.of_mut());
        unsafe { linked::skut_find_seq_each(self.state, p, n, q, m, x, i, y, j, z, k, round) }
    }

    pub fn why_ts(&self, seq: u64, round: u32) -> WhyAnswer {
        let ((p, n), (q, m)) = (self.seqs.of(), self.secs.of());
        unsafe { linked::skut_why_ts(self.state, p, n, q, m, seq, round) }
    }

    pub fn why_seq(&self, sec: i64, round: u32) -> WhyAnswer {
        let ((p, n), (q, m)) = (self.seqs.of(), self.secs.of());
        unsafe { linked::skut_why_seq(self.state, p, n, q, m, sec, round) }
    }

    pub fn save(&self, strict: bool, out: &mut Lent<u8>) -> Answer {
        let ((p, n), (q, m), (o, k)) = (self.seqs.of(), self.secs.of(), out.of_mut());
        unsafe {
            if strict { linked::skut_save_strict(self.state, p, n, q, m, o, k) } else { linked::skut_save(self.state, p, n, q, m, o, k) }
        }
    }

    pub fn restore(bytes: &[u8], seqs: &mut Lent<u64>, secs: &mut Lent<i64>) -> TableAnswer {
        let ((p, n), (q, m)) = (seqs.of_mut(), secs.of_mut());
        unsafe { linked::skut_restore(bytes.as_ptr(), bytes.len(), p, n, q, m) }
    }

    pub fn restore_with_interval(bytes: &[u8], seqs: &mut Lent<u64>, secs: &mut Lent<i64>, interval_secs: u64) -> TableAnswer {
        let ((p, n), (q, m)) = (seqs.of_mut(), secs.of_mut());
        unsafe { linked::skut_restore_with_interval(bytes.as_ptr(), bytes.len(), p, n, q, m, interval_secs) }
    }
}
