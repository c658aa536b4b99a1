//! Offers: recorded, skipped and refused, the pairs and the last recorded second after each, and halving. Why an offer is skipped the
//! Rust does not tell, so the rules (docs/RULES.md) alone judge it. The totals are left out of what is compared, and held to the comparison's own count.
use super::super::*;
use super::chance::{Chance, FIRST_SECOND, LAST_SECOND};
use super::lent::{self, holding};
use super::ours::{self, but_totals, Answer, State, Table, TableAnswer, Totals, NO_OFFERS, NO_TOTALS, OK};
use super::refusals::{no_table, told};
use super::tally::Tally;
use super::theirs::{self, Offer, Reason};

/// Our table of the Rust's pairs, in arrays with some places to spare. Its totals are any that leave room for every offer.
pub fn table_of(chance: &mut Chance, t: &SequenceTracker) -> Table {
    let room = (t.capacity as usize).max(1) + chance.index(3);
    let spare = room - t.sequence_numbers.len();
    let (seqs, secs) = (lent::seqs(chance, &t.sequence_numbers, spare), lent::secs(chance, &t.timestamps, spare));
    let counted = chance.sized() >> 1;
    let due = chance.totals(counted);
    Table { state: State { totals: due, ..theirs::state(t) }, seqs, secs, due }
}

/// What the Rust's table holds, in full.
pub fn shown(t: &SequenceTracker) -> String {
    format!("{t:?}")
}

/// What of an answer the Rust tells too: how many offers were skipped, and not why; the state but for its totals.
#[derive(Debug, PartialEq)]
pub struct Comparable {
    answer: Answer,
    recorded: usize,
    skipped: u128,
    state: State,
}

pub fn comparable(said: &TableAnswer) -> Comparable {
    let counts = said.tally;
    let skipped = counts.went_back as u128 + counts.too_soon as u128;
    Comparable { answer: said.answer, recorded: counts.recorded, skipped, state: but_totals(said.state) }
}

/// One offer on both sides, and our answer. The tables go on from what it leaves.
pub fn offer(tally: &mut Tally, t: &mut SequenceTracker, ours: &mut Table, seq: u64, sec: i64) -> TableAnswer {
    let (stood, totals) = (t.clone(), ours.due);
    let input = || format!("({seq}, {sec}) offered to {}, {totals:?}", shown(&stood));
    let before = (ours.seqs.all(), ours.secs.all());
    if theirs::full(totals) {
        return not_counted(tally, input, &stood, ours, seq, sec);
    }
    let outcome = theirs::offer(t, seq, sec);
    let halved = outcome == Offer::Recorded && stood.sequence_numbers.len() + 1 > stood.capacity as usize;
    let (kind, answer) = match outcome {
        Offer::Recorded if halved => ("offers recorded, and the table halved", OK),
        Offer::Recorded => ("offers recorded", OK),
        Offer::Skipped(_) => ("offers skipped", OK),
        Offer::Refused(16) => ("offers refused, 16", told(16, 0, 0)),
        Offer::Refused(_) => ("offers refused, 17", told(17, 0, 0)),
    };
    let theirs = TableAnswer { answer, tally: outcome.counted(NO_OFFERS), state: theirs::state(t) };
    let answered = ours.offer(seq, sec);
    if answer.number == 16 {
        tally.ruled(kind, input, &comparable(&theirs), &comparable(&answered));
    } else {
        tally.same(kind, input, &comparable(&theirs), &comparable(&answered));
    }
    if let Offer::Skipped(why) = outcome {
        let kind = if why == Reason::WentBack { "offers skipped, went back" } else { "offers skipped, too soon" };
        tally.ruled(kind, input, &theirs.tally, &answered.tally);
    }
    let after = (ours.seqs.all(), ours.secs.all());
    match outcome {
        Offer::Recorded => {
            let now = (holding(&before.0, &t.sequence_numbers), holding(&before.1, &t.timestamps));
            tally.holds(kind, input, &now, &after);
        }
        Offer::Skipped(_) => tally.holds(kind, input, &before, &after),
        Offer::Refused(_) => tally.kept(kind, input, &before, &after),
    }
    go_on(tally, "totals after offers", input, ours, outcome.totalled(totals), answered.state);
    answered
}

/// The totals of a state that our call returned are the comparison's own count. Our table goes on from that state.
pub fn go_on(tally: &mut Tally, kind: &'static str, input: impl Fn() -> String, ours: &mut Table, due: Totals, state: State) {
    tally.ruled(kind, input, &due, &state.totals);
    ours.state = state;
    ours.due = due;
}

/// 31, by the rules (docs/RULES.md) alone, whatever would else come of the offer: nothing is counted, and there is no state.
fn not_counted(tally: &mut Tally, input: impl Fn() -> String, t: &SequenceTracker, ours: &mut Table, seq: u64, sec: i64) -> TableAnswer {
    let kind = match theirs::offer(&mut t.clone(), seq, sec) {
        Offer::Recorded => "offers refused, 31",
        Offer::Skipped(_) => "offers refused, 31 before a skip",
        Offer::Refused(16) => "offers refused, 31 before 16",
        Offer::Refused(_) => "offers refused, 31 before 17",
    };
    let before = (ours.seqs.all(), ours.secs.all());
    let answered = ours.offer(seq, sec);
    tally.ruled(kind, &input, &no_table(told(31, 0, 0)), &answered);
    tally.kept(kind, &input, &before, &(ours.seqs.all(), ours.secs.all()));
    answered
}

/// Every list of up to `left` offers of small numbers.
fn every(tally: &mut Tally, chance: &mut Chance, t: &SequenceTracker, left: u32) {
    if left == 0 {
        return;
    }
    for seq in 0..3 {
        for sec in 0..4 {
            let mut next = t.clone();
            let mut ours = table_of(chance, t);
            offer(tally, &mut next, &mut ours, seq, sec);
            every(tally, chance, &next, left - 1);
        }
    }
}

pub fn exhaustive(tally: &mut Tally) {
    let chance = &mut Chance::new(2);
    for capacity in 0..5 {
        for interval in [0, 1, 2] {
            every(tally, chance, &SequenceTracker::with_config(capacity, interval), 4);
        }
    }
}

/// A second at a limit: the interval after the last recorded one, that one, or the domain's ends; seldom one outside.
pub fn second(chance: &mut Chance, last: Option<i64>, interval: u64) -> i64 {
    let from = last.unwrap_or_else(|| chance.of(&[0, 1_700_000_000, FIRST_SECOND]));
    let near = chance.below(3) as i64 - 1;
    let sec = match chance.below(8) {
        0 => from,
        1 => from.saturating_sub(chance.below(100) as i64),
        2 | 3 => from.saturating_add(chance.below(200) as i64),
        6 if chance.below(20) == 0 => return outside(chance),
        7 if chance.below(20) == 0 => chance.of(&[FIRST_SECOND, LAST_SECOND]),
        _ => from.saturating_add((interval as i64).saturating_add(near)),
    };
    sec.clamp(FIRST_SECOND, LAST_SECOND)
}

/// A second out of domain.
pub fn outside(chance: &mut Chance) -> i64 {
    chance.of(&[FIRST_SECOND - 1, LAST_SECOND + 1, i64::MIN, i64::MAX])
}

/// A sequence about the last kept one, seldom below it.
pub fn sequence(chance: &mut Chance, last: Option<u64>) -> u64 {
    let from = last.unwrap_or_else(|| chance.of(&[0, 5, 1 << 63, u64::MAX - 50]));
    match chance.below(12) {
        0 => from.saturating_sub(1 + chance.below(3)),
        1 | 2 => from,
        3 if chance.below(30) == 0 => u64::MAX,
        _ => from.saturating_add(chance.below(100)),
    }
}

/// An empty table with settings at their limits.
pub fn empty(chance: &mut Chance) -> SequenceTracker {
    let capacity = chance.of(&[0, 1, 2, 3, 4, 5, 6, 7, 8, 15, 16]);
    let interval = chance.of(&[0, 0, 1, 10, 60, 1 << 40, i64::MAX as u64]);
    SequenceTracker::with_config(capacity, interval)
}

/// Our table of the settings of an empty one, as `with_config` makes it.
pub fn made(tally: &mut Tally, chance: &mut Chance, t: &SequenceTracker) -> Table {
    let answer = ours::with_config(t.capacity, t.interval_secs);
    tally.same("settings", || shown(t), &comparable(&theirs::given(t)), &comparable(&answer));
    let mut ours = table_of(chance, t);
    go_on(tally, "totals of tables made", || shown(t), &mut ours, NO_TOTALS, answer.state);
    ours
}

pub fn random(tally: &mut Tally, chance: &mut Chance) {
    for _ in 0..250 {
        let mut t = empty(chance);
        let mut ours = made(tally, chance, &t);
        for _ in 0..chance.below(60) {
            let sec = second(chance, t.last_recorded_ts, t.interval_secs);
            let seq = sequence(chance, t.sequence_numbers.last().copied());
            offer(tally, &mut t, &mut ours, seq, sec);
        }
    }
    // slatedb's `new()` is our settings with its interval named; `skut_new` has another interval, by the rules (docs/RULES.md)
    let new = theirs::given(&SequenceTracker::new());
    let named = ours::with_config(8192, theirs::SLATEDB_INTERVAL_SECS);
    tally.same("settings", || "slatedb's new".into(), &comparable(&new), &comparable(&named));
    let rule = State { count: 0, capacity: 8192, has_last: 0, interval_secs: ours::SKUT_INTERVAL_SECS, last: 0, totals: NO_TOTALS };
    tally.ruled("settings by default", || "skut_new".into(), &TableAnswer { answer: OK, tally: NO_OFFERS, state: rule }, &ours::new());
}
