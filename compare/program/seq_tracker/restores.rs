//! Restores: at slatedb's interval, at others, and by the call that names none, from good and damaged bytes.
use super::super::*;
use super::chance::Chance;
use super::lent::{self, Lent};
use super::offers::comparable;
use super::ours::{self, Answer, State, Table, TableAnswer, NO_TOTALS, OK};
use super::readers::{above_room, refused, unfit, Theirs};
use super::refusals::no_table;
use super::tally::Tally;
use super::theirs;

/// What a restore has to make of bytes that the Rust reads so: the Rust's table, or the refusal. 10 to 13 are by the rules (docs/RULES.md).
pub fn due<'a>(bytes: &[u8], theirs: &'a Theirs) -> Result<&'a SequenceTracker, Answer> {
    if let Some(array) = above_room(bytes, 8192) {
        return Err(refused(10, array));
    }
    let t = theirs.as_ref().map_err(|refusal| *refusal)?;
    match unfit(&t.sequence_numbers, &t.timestamps) {
        Some((number, index)) => Err(refused(number, index)),
        None => Ok(t),
    }
}

/// What an answer is counted as, by its number: at slatedb's interval, at which the Rust restores, or at another.
fn kind(number: u32, slatedbs: bool) -> &'static str {
    match (number, slatedbs) {
        (0, true) => "tables restored",
        (0, false) => "tables restored at another interval",
        (1..=9, true) => "tables not restored, 1 to 9",
        (1..=9, false) => "tables not restored at another interval, 1 to 9",
        (10, true) => "tables not restored, 10",
        (10, false) => "tables not restored at another interval, 10",
        (_, true) => "tables not restored, 11 to 13",
        (_, false) => "tables not restored at another interval, 11 to 13",
    }
}

/// Arrays that are lent to one restore after the other, and what they should hold.
pub struct Lending {
    seqs: Lent<u64>,
    secs: Lent<i64>,
    held: (Vec<u64>, Vec<i64>),
}

impl Lending {
    pub fn new(chance: &mut Chance) -> Lending {
        let (seqs, secs) = (lent::seqs(chance, &[], 8192), lent::secs(chance, &[], 8192));
        let held = (seqs.all(), secs.all());
        Lending { seqs, secs, held }
    }

    fn whole(&self) -> (&[u64], &[i64]) {
        (self.seqs.whole(), self.secs.whole())
    }

    fn held(&self) -> (&[u64], &[i64]) {
        (&self.held.0, &self.held.1)
    }

    /// Our table, in the arrays that the last restore was lent, and with nothing counted.
    pub fn into_table(self, state: State) -> Table {
        Table { state, seqs: self.seqs, secs: self.secs, due: NO_TOTALS }
    }

    /// A restore that names an interval, beside the Rust's table, whose interval is set to that one unless it is slatedb's own; and our answer.
    pub fn restore(&mut self, tally: &mut Tally, bytes: &[u8], theirs: &Theirs, interval: u64) -> TableAnswer {
        let input = || format!("interval {interval}, bytes {bytes:02x?}");
        let slatedbs = interval == theirs::SLATEDB_INTERVAL_SECS;
        let ours = Table::restore_with_interval(bytes, &mut self.seqs, &mut self.secs, interval);
        match due(bytes, theirs) {
            Ok(t) => {
                let kind = kind(0, slatedbs);
                let set = if slatedbs { t.clone() } else { theirs::at_interval(t.clone(), interval) };
                tally.same(kind, input, &comparable(&theirs::given(&set)), &comparable(&ours));
                tally.ruled("totals of tables restored", input, &NO_TOTALS, &ours.state.totals);
                lent::set(&mut self.held.0, 0, &t.sequence_numbers);
                lent::set(&mut self.held.1, 0, &t.timestamps);
                tally.holds(kind, input, &self.held(), &self.whole());
            }
            Err(refusal) => {
                let kind = kind(refusal.number, slatedbs);
                if refusal.number < 10 {
                    tally.same(kind, input, &no_table(refusal), &ours);
                } else {
                    tally.ruled(kind, input, &no_table(refusal), &ours);
                }
                tally.kept(kind, input, &self.held(), &self.whole());
            }
        }
        ours
    }
}

/// Every way to restore, each with arrays of its own: at slatedb's interval, at others, at our default one by its name, and by the call that takes none.
pub struct Restores {
    slatedbs: Lending,
    others: Lending,
    named: Lending,
    unnamed: (Lent<u64>, Lent<i64>),
}

impl Restores {
    pub fn new(chance: &mut Chance) -> Restores {
        let named = Lending::new(chance);
        let unnamed = (named.seqs.clone(), named.secs.clone());
        Restores { slatedbs: Lending::new(chance), others: Lending::new(chance), named, unnamed }
    }

    pub fn all(&mut self, tally: &mut Tally, chance: &mut Chance, bytes: &[u8], theirs: &Theirs) {
        self.slatedbs.restore(tally, bytes, theirs, theirs::SLATEDB_INTERVAL_SECS);
        self.others.restore(tally, bytes, theirs, chance.interval());
        let named = self.named.restore(tally, bytes, theirs, ours::SKUT_INTERVAL_SECS);
        self.by_default(tally, bytes, named);
    }

    /// The call that takes no interval. By the rules (docs/RULES.md) it is the other at our default one, which was made just before, into arrays that held the same.
    fn by_default(&mut self, tally: &mut Tally, bytes: &[u8], named: TableAnswer) {
        let input = || format!("bytes {bytes:02x?}");
        let restored = named.answer == OK;
        let kind = if restored { "tables restored with no interval named" } else { "tables not restored with no interval named" };
        tally.ruled(kind, input, &named, &Table::restore(bytes, &mut self.unnamed.0, &mut self.unnamed.1));
        let whole = (self.unnamed.0.whole(), self.unnamed.1.whole());
        if restored {
            tally.holds(kind, input, &self.named.whole(), &whole);
        } else {
            tally.kept(kind, input, &self.named.whole(), &whole);
        }
    }
}
