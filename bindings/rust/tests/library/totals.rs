//! The totals: what each offer counts, the state that comes with 16 and 17, where 31 comes, and that nothing else goes by them.
use crate::chance::Chance;
use crate::run::Case;
use crate::tables::{but_totals, pair, table};
use skutlaneb::sys::{self, Answer, State, TableAnswer};
use skutlaneb::Inserted::{Recorded, TooSoon, WentBack};
use skutlaneb::{Error, FindOption, Inserted, ListError, SequenceTracker, Tally, Totals, TrackedSeq};
use std::mem::{offset_of, size_of};

pub const CASES: &[Case] = &[
    ("each outcome of an offer counts once", each_outcome),
    ("insert goes on after 16 and 17, and counts them", goes_on),
    ("a list counts each pair up to the one that is refused, and that one with 16 and 17", lists),
    ("an offer of the library counts once, and changes nothing else of the state but where it is recorded", one_offer),
    ("at 2^64-1 every offer is refused by 31, before 16, and nothing is counted", full),
    ("14, 11, 12 and 13 come before 31", bad_tables),
    ("totals that do not add up within 64 bits are refused by 14, by every call", too_large),
    ("lookups and saves are the same at any totals", same_answers),
    ("a list stops with 31 where its totals are full, and keeps what came of the pairs before", list_stops),
    ("a table of the crate whose totals are full answers 31, and keeps what it counted", tracker_full),
    ("a new table's totals are 0, and a restored one's", from_zero),
    ("the totals of runs of chance are what the outcomes add up to", by_chance),
];

const LAST_SECOND: i64 = 253_402_300_799;
const MOST: u64 = u64::MAX;

fn totals(recorded: u64, went_back: u64, too_soon: u64, refused: u64) -> Totals {
    Totals { recorded, went_back, too_soon, refused }
}

fn each_outcome() {
    let mut tracker = SequenceTracker::with_config(8, 10).unwrap();
    let offers = [
        ((5, 100), Ok(Recorded), totals(1, 0, 0, 0)),
        ((6, 99), Ok(WentBack), totals(1, 1, 0, 0)),
        ((6, 109), Ok(TooSoon), totals(1, 1, 1, 0)),
        ((6, LAST_SECOND + 1), Err(Error::OfferedOutside), totals(1, 1, 1, 1)),
        ((4, 110), Err(Error::OfferedDrops), totals(1, 1, 1, 2)),
        ((4, 99), Ok(WentBack), totals(1, 2, 1, 2)),
        ((4, 100), Ok(TooSoon), totals(1, 2, 2, 2)),
        ((5, 110), Ok(Recorded), totals(2, 2, 2, 2)),
    ];
    assert_eq!(tracker.totals(), Totals::default());
    for (offered, told, after) in offers {
        let before = but_totals(&tracker);
        assert_eq!((tracker.insert(TrackedSeq::from(offered)), tracker.totals()), (told, after), "{offered:?}");
        assert_eq!(but_totals(&tracker) == before, told != Ok(Recorded), "{offered:?}");
    }
    assert!(format!("{tracker:?}").contains("totals: Totals { recorded: 2, went_back: 2, too_soon: 2, refused: 2 }"));
    // Pairs that are dropped were recorded.
    assert_eq!(table(3, 0, &[(1, 10), (2, 20), (3, 30), (4, 40)]).totals(), totals(4, 0, 0, 0));
}

fn goes_on() {
    let mut tracker = table(8, 10, &[(5, 100)]);
    let mut without = tracker.clone();
    for refused in 1..=20 {
        let (offered, why) = if refused % 2 == 0 { (pair(4, 150), Error::OfferedDrops) } else { (pair(9, i64::MIN), Error::OfferedOutside) };
        assert_eq!((tracker.insert(offered), tracker.totals()), (Err(why), totals(1, 0, 0, refused)));
    }
    assert_eq!((tracker.check(), but_totals(&tracker)), (Ok(()), but_totals(&without)));
    // What is offered next goes as if nothing had been refused.
    for offered in [pair(5, 109), pair(5, 110), pair(6, 99), pair(6, 130)] {
        assert_eq!(tracker.insert(offered), without.insert(offered));
    }
    assert_eq!((but_totals(&tracker), tracker.to_bytes()), (but_totals(&without), without.to_bytes()));
    assert_eq!((tracker.totals(), without.totals()), (totals(3, 1, 1, 20), totals(3, 1, 1, 0)));
}

fn lists() {
    let six = [(5, 100), (6, 99), (6, 109), (6, 110), (7, 100), (7, 125)].map(TrackedSeq::from);
    let before = Tally { recorded: 3, went_back: 2, too_soon: 1 };
    for (refused, why) in [(pair(6, 200), Error::OfferedDrops), (pair(8, LAST_SECOND + 1), Error::OfferedOutside)] {
        let mut tracker = SequenceTracker::with_config(8, 10).unwrap();
        assert_eq!((tracker.insert_all(&six), tracker.totals()), (Ok(before), totals(3, 2, 1, 0)));
        let stopped = tracker.insert_all(&[pair(7, 125), refused, pair(8, 300)]);
        assert_eq!(stopped, Err(ListError::Stopped { at: 1, why, before: Tally { too_soon: 1, ..Tally::default() } }));
        assert_eq!(tracker.totals(), totals(3, 2, 2, 1));
        assert_eq!((tracker.insert_all(&[pair(8, 300)]).is_ok(), tracker.totals()), (true, totals(4, 2, 2, 1)));
        assert_eq!((tracker.insert_all(&[]), tracker.totals()), (Ok(Tally::default()), totals(4, 2, 2, 1)));
    }
    // Another table's pairs count as they are offered, whatever that table has counted.
    let mut other = table(8, 0, &[(1, 10), (2, 20), (3, 24), (4, 40), (6, 60)]);
    assert_eq!(other.insert(pair(0, 70)), Err(Error::OfferedDrops));
    let mut tracker = table(8, 10, &[(5, 21)]);
    assert_eq!(tracker.extend_from(&other).map_err(|error| error.number()), Err(17));
    assert_eq!((tracker.totals(), other.totals()), (totals(1, 2, 1, 1), totals(5, 0, 0, 1)));
}

/// Totals that add up to 2^64-1.
const FULL: [sys::Totals; 7] = [
    sum(MOST, 0, 0, 0),
    sum(0, MOST, 0, 0),
    sum(0, 0, MOST, 0),
    sum(0, 0, 0, MOST),
    sum(1 << 63, (1 << 63) - 1, 0, 0),
    sum(1 << 62, 1 << 62, 1 << 62, (1 << 62) - 1),
    sum(1, 2, 3, MOST - 6),
];

/// Totals that add up to 2^64 or more, some of them to a small number by 64 bits.
const TOO_LARGE: [sys::Totals; 10] = [
    sum(MOST, 1, 0, 0),
    sum(MOST, 0, 1, 0),
    sum(MOST, 0, 0, 1),
    sum(1, MOST, 0, 0),
    sum(0, 0, 1, MOST),
    sum(1 << 63, 1 << 63, 0, 0),
    sum(0, 1 << 63, 0, 1 << 63),
    sum(1 << 62, 1 << 62, 1 << 62, 1 << 62),
    sum(0, MOST, MOST, 2),
    sum(MOST, MOST, MOST, MOST),
];

const fn sum(recorded: u64, went_back: u64, too_soon: u64, refused: u64) -> sys::Totals {
    sys::Totals { recorded, went_back, too_soon, refused }
}

/// A table as the library takes it: its state, and arrays that hold other values past its two pairs.
#[derive(Clone, Copy, Debug, PartialEq)]
struct Lent {
    state: State,
    seqs: [u64; 5],
    secs: [i64; 5],
}

fn lent(totals: sys::Totals) -> Lent {
    let state = State { count: 2, capacity: 4, has_last: 1, interval_secs: 10, last: 120, totals };
    Lent { state, seqs: [5, 7, 91, 92, 93], secs: [100, 120, -91, -92, -93] }
}

impl Lent {
    fn offer(&mut self, seq: u64, sec: i64) -> TableAnswer {
        unsafe { sys::skut_offer(self.state, self.seqs.as_mut_ptr(), 5, self.secs.as_mut_ptr(), 5, seq, sec) }
    }

    fn offer_pairs(&mut self, seqs: &[u64], secs: &[i64]) -> TableAnswer {
        let (s, z) = (self.seqs.as_mut_ptr(), self.secs.as_mut_ptr());
        unsafe { sys::skut_offer_pairs(self.state, s, 5, z, 5, seqs.as_ptr(), seqs.len(), secs.as_ptr(), secs.len()) }
    }

    /// The pairs of another table, which has counted 2^64-1 offers.
    fn extend_from(&mut self, seqs: &[u64], secs: &[i64]) -> TableAnswer {
        let last = secs.last().copied().unwrap_or_default();
        let capacity = seqs.len() as u32;
        let other = State { count: seqs.len(), capacity, has_last: u32::from(capacity > 0), interval_secs: 0, last, totals: FULL[6] };
        let (s, z) = (self.seqs.as_mut_ptr(), self.secs.as_mut_ptr());
        unsafe { sys::skut_extend_from(self.state, s, 5, z, 5, other, seqs.as_ptr(), seqs.len(), secs.as_ptr(), secs.len()) }
    }

    fn check(&self) -> u32 {
        unsafe { sys::skut_check(self.state, self.seqs.as_ptr(), 5, self.secs.as_ptr(), 5) }.number
    }
}

fn refused(number: u32, a: u64, state: State) -> TableAnswer {
    TableAnswer { answer: Answer { number, a, ..Answer::default() }, tally: sys::Tally::default(), state }
}

/// The state that stands where none is returned.
fn none() -> State {
    unsafe { sys::skut_with_config(8193, 0) }.state
}

/// Each way that an offer to the table goes: the number, and what it counts. Some sequences drop where the pair is skipped or outside the years.
const OFFERS: [(u64, i64, u32, sys::Totals); 9] = [
    (7, 130, 0, sum(1, 0, 0, 0)),
    (8, 119, 0, sum(0, 1, 0, 0)),
    (0, -62_135_596_800, 0, sum(0, 1, 0, 0)),
    (8, 120, 0, sum(0, 0, 1, 0)),
    (6, 129, 0, sum(0, 0, 1, 0)),
    (6, 130, 17, sum(0, 0, 0, 1)),
    (0, LAST_SECOND, 17, sum(0, 0, 0, 1)),
    (8, LAST_SECOND + 1, 16, sum(0, 0, 0, 1)),
    (0, i64::MIN, 16, sum(0, 0, 0, 1)),
];

fn one_offer() {
    let before = [sum(0, 0, 0, 0), sum(1, 2, 3, 4), sum(MOST - 1, 0, 0, 0), sum(0, MOST - 1, 0, 0), sum(0, 0, MOST - 1, 0), sum(0, 0, 0, MOST - 1)];
    for (seq, sec, number, more) in OFFERS {
        for n in before {
            let after = sum(n.recorded + more.recorded, n.went_back + more.went_back, n.too_soon + more.too_soon, n.refused + more.refused);
            let (mut offered, mut due) = (lent(n), lent(after));
            if more.recorded == 1 {
                (due.seqs[2], due.secs[2]) = (seq, sec);
                (due.state.count, due.state.last) = (3, sec);
            }
            let told = offered.offer(seq, sec);
            assert_eq!((told.answer, told.state), (Answer { number, ..Answer::default() }, due.state), "({seq}, {sec})");
            let tally = sys::Tally { recorded: more.recorded as usize, went_back: more.went_back as usize, too_soon: more.too_soon as usize };
            assert_eq!(told.tally, tally);
            offered.state = told.state;
            assert_eq!((offered, offered.check()), (due, 0), "({seq}, {sec})");
        }
    }
}

fn full() {
    for totals in FULL {
        let before = lent(totals);
        assert_eq!(before.check(), 0);
        for (seq, sec, number, _) in OFFERS {
            let mut offered = before;
            assert_eq!(offered.offer(seq, sec), refused(31, 0, none()), "({seq}, {sec})");
            assert_eq!(offered.offer_pairs(&[seq], &[sec]), refused(31, 0, before.state), "({seq}, {sec})");
            if number != 16 {
                assert_eq!(offered.extend_from(&[seq], &[sec]), refused(31, 0, before.state), "({seq}, {sec})");
            }
            assert_eq!(offered, before);
        }
        // An empty list offers nothing.
        let mut offered = before;
        assert_eq!(offered.offer_pairs(&[], &[]), refused(0, 0, before.state));
    }
}

fn bad_tables() {
    let mut bad = [lent(FULL[0]); 4];
    bad[0].state.has_last = 2;
    bad[1].seqs[1] = 4;
    bad[2].secs[1] = 99;
    bad[3].secs[0] = i64::MIN;
    for (table, number, index) in [(bad[0], 14, 0), (bad[1], 11, 1), (bad[2], 12, 1), (bad[3], 13, 0)] {
        for totals in FULL {
            let before = Lent { state: State { totals, ..table.state }, ..table };
            for (seq, sec, _, _) in OFFERS {
                let mut offered = before;
                assert_eq!(offered.offer(seq, sec), refused(number, index, none()));
                assert_eq!(offered.offer_pairs(&[seq], &[sec]), refused(number, index, none()));
                assert_eq!(offered.offer_pairs(&[seq], &[]), refused(18, 0, none()));
                assert_eq!(offered, before);
            }
            let mut offered = before;
            assert_eq!(offered.extend_from(&[8], &[130]), refused(number, index, none()));
            assert_eq!(offered, before);
        }
        // Where the totals are too large, 14 comes before the others.
        let mut table = Lent { state: State { totals: TOO_LARGE[0], ..table.state }, ..table };
        assert_eq!((table.check(), table.offer(8, i64::MAX)), (14, refused(14, 0, none())));
    }
}

fn too_large() {
    for totals in TOO_LARGE {
        let before = lent(totals);
        let (mut table, mut good, mut out) = (before, lent(FULL[5]), [7; 64]);
        let disagrees = Answer { number: 14, ..Answer::default() };
        assert_eq!((table.check(), table.offer(7, 130)), (14, refused(14, 0, none())));
        assert_eq!(table.offer_pairs(&[], &[]), refused(14, 0, none()));
        assert_eq!(table.offer_pairs(&[7], &[]), refused(18, 0, none()));
        assert_eq!(table.extend_from(&[7], &[130]), refused(14, 0, none()));
        let (state, s, z) = (table.state, table.seqs.as_mut_ptr(), table.secs.as_mut_ptr());
        unsafe {
            let other = sys::skut_extend_from(good.state, good.seqs.as_mut_ptr(), 5, good.secs.as_mut_ptr(), 5, state, s, 5, z, 5);
            assert_eq!(other, refused(14, 1, none()));
            assert_eq!(sys::skut_find_ts(state, s, 5, z, 5, 7, 0), disagrees);
            assert_eq!(sys::skut_find_seq(state, s, 5, z, 5, 100, 0), disagrees);
            assert_eq!(sys::skut_save(state, s, 5, z, 5, out.as_mut_ptr(), 64), disagrees);
            assert_eq!(sys::skut_save_strict(state, s, 5, z, 5, out.as_mut_ptr(), 64), disagrees);
        }
        assert_eq!((table, good, out), (before, lent(FULL[5]), [7; 64]), "{totals:?}");
    }
}

/// What the calls that offer nothing answer, and the bytes that are saved.
fn answers(totals: sys::Totals) -> (Vec<Answer>, [[u8; 64]; 2]) {
    let (table, mut saved) = (lent(totals), [[7; 64]; 2]);
    let (state, s, z) = (table.state, table.seqs.as_ptr(), table.secs.as_ptr());
    let mut told = unsafe { vec![sys::skut_check(state, s, 5, z, 5)] };
    for (key, round) in [4, 5, 6, 7, 8].into_iter().flat_map(|key| [(key, 0), (key, 1)]) {
        told.push(unsafe { sys::skut_find_ts(state, s, 5, z, 5, key, round) });
        told.push(unsafe { sys::skut_find_seq(state, s, 5, z, 5, 20 * key as i64, round) });
    }
    for room in [10, 64] {
        told.push(unsafe { sys::skut_save(state, s, 5, z, 5, saved[0].as_mut_ptr(), room) });
        told.push(unsafe { sys::skut_save_strict(state, s, 5, z, 5, saved[1].as_mut_ptr(), room) });
    }
    (told, saved)
}

fn same_answers() {
    let plain = answers(sum(0, 0, 0, 0));
    assert_eq!((plain.0[0], plain.0.last().map(|saved| saved.number)), (Answer::default(), Some(0)));
    for totals in FULL.into_iter().chain([sum(1, 2, 3, 4)]) {
        assert_eq!(answers(totals), plain, "{totals:?}");
    }
}

/// A list, to totals with room for no offer, for one, and so on: those that there is room for go as they do alone, and the next one is refused by 31.
fn list_stops() {
    // Two that went back, one too soon; then recorded, too soon and recorded, or one that is refused.
    let (q, s) = ([1, 2, 3, 8, 8, 9], [100, 119, 125, 130, 139, 140]);
    let (low, outside) = ([1, 2, 3, 6, 8, 9], [100, 119, 125, LAST_SECOND + 1, 139, 140]);
    for (q, s, number, end) in [(q, s, 0, 6), (low, s, 17, 3), (q, outside, 16, 3)] {
        for room in 0..=7 {
            let before = lent(sum(MOST - 6 - room as u64, 1, 2, 3));
            let first = room.min(end);
            let (mut alone, mut listed, mut extended) = (before, before, before);
            let mut due = alone.offer_pairs(&q[..first], &s[..first]);
            assert_eq!((due.answer, due.tally.recorded + due.tally.went_back + due.tally.too_soon), (Answer::default(), first));
            if room < 6 && room <= end {
                due.answer = Answer { number: 31, a: first as u64, ..Answer::default() };
            } else if number != 0 {
                due.answer = Answer { number, a: first as u64, ..Answer::default() };
                due.state.totals.refused += 1;
            }
            assert_eq!((listed.offer_pairs(&q, &s), listed), (due, alone), "{number}, room for {room}");
            if number != 16 {
                assert_eq!((extended.extend_from(&q, &s), extended), (due, alone), "{number}, room for {room}");
            }
        }
    }
}

/// Writes totals to a table's own memory, since no program offers so often: they stand after the interval, which is a number that stands nowhere else there.
fn set_totals(tracker: &mut SequenceTracker, totals: sys::Totals) {
    const WORDS: usize = size_of::<SequenceTracker>() / 8;
    let interval_secs = tracker.interval_secs();
    let memory = tracker as *mut SequenceTracker as *mut u64;
    let found: Vec<usize> = (0..WORDS).filter(|&word| unsafe { memory.add(word).read() } == interval_secs).collect();
    assert_eq!(found.len(), 1);
    let at = found[0] + (offset_of!(State, totals) - offset_of!(State, interval_secs)) / 8;
    unsafe { (memory.add(at) as *mut sys::Totals).write(totals) };
    assert_eq!(tracker.totals(), Totals::from(totals));
}

fn tracker_full() {
    // The interval, which no second is.
    const INTERVAL: u64 = 1_234_567;
    const STEP: i64 = 2_000_000;
    let mut tracker = table(8, INTERVAL, &[(5, 0)]);
    set_totals(&mut tracker, sum(1, 2, 3, MOST - 8));
    // Room for two, which are too soon and refused.
    let stopped = tracker.insert_all(&[pair(6, 1), pair(4, STEP)]);
    assert_eq!(stopped, Err(ListError::Stopped { at: 1, why: Error::OfferedDrops, before: Tally { too_soon: 1, ..Tally::default() } }));
    let most = totals(1, 2, 4, MOST - 7);
    let before = but_totals(&tracker);
    for offered in [pair(6, STEP), pair(6, -1), pair(6, 1), pair(4, STEP), pair(6, i64::MAX)] {
        assert_eq!(tracker.insert(offered), Err(Error::TotalsFull));
        let stopped = Err(ListError::Stopped { at: 0, why: Error::TotalsFull, before: Tally::default() });
        assert_eq!(tracker.insert_all(&[offered, offered]), stopped);
    }
    assert_eq!((tracker.totals(), but_totals(&tracker), tracker.check()), (most, before, Ok(())));

    // Room for one pair of a list: it is recorded, and what it came to is kept.
    set_totals(&mut tracker, sum(MOST - 1, 0, 0, 0));
    let recorded = Tally { recorded: 1, ..Tally::default() };
    let stopped = Err(ListError::Stopped { at: 1, why: Error::TotalsFull, before: recorded });
    let mut other = table(8, 0, &[(6, STEP), (7, 2 * STEP)]);
    let mut extended = tracker.clone();
    assert_eq!(tracker.insert_all(&[pair(6, STEP), pair(7, 2 * STEP)]), stopped);
    assert_eq!(extended.extend_from(&other), stopped);
    for tracker in [&tracker, &extended] {
        assert_eq!((but_totals(tracker).0, tracker.totals()), (vec![(5, 0), (6, STEP)], totals(MOST, 0, 0, 0)));
        assert_eq!(tracker.find_ts(6, FindOption::RoundUp).map(|found| found.map(i64::from)), Ok(Some(STEP)));
    }
    // As another table's, such totals do not matter; and a table that is read has none.
    assert_eq!((other.extend_from(&tracker), other.totals()), (Ok(Tally { went_back: 2, ..Tally::default() }), totals(2, 2, 0, 0)));
    let mut back = SequenceTracker::from_bytes_with_interval(&tracker.to_bytes_strict().unwrap(), INTERVAL).unwrap();
    assert_eq!((back.insert(pair(7, 2 * STEP)), back.totals()), (Ok(Recorded), totals(1, 0, 0, 0)));

    // Totals that no call can make, as if other code had written to the table's memory.
    set_totals(&mut tracker, sum(MOST, 0, 0, 1));
    assert_eq!((tracker.check(), tracker.insert(pair(7, 2 * STEP))), (Err(Error::StateDisagrees), Err(Error::StateDisagrees)));
    assert_eq!(tracker.insert_all(&[]), Err(ListError::Own(Error::StateDisagrees)));
    assert_eq!(other.extend_from(&tracker), Err(ListError::Other(Error::StateDisagrees)));
}

fn from_zero() {
    assert_eq!([SequenceTracker::new(), SequenceTracker::default(), table(3, 0, &[])].map(|made| made.totals()), [Totals::default(); 3]);
    let mut saved = table(8192, 10, &[(5, 100), (6, 110)]);
    let bytes = saved.to_bytes_strict().unwrap();
    for (offered, number) in [(pair(6, 99), 0), (pair(6, 111), 0), (pair(4, 130), 17), (pair(4, i64::MAX), 16)] {
        assert_eq!(saved.insert(offered).map_or_else(|error| error.number(), |_| 0), number);
        assert_eq!((saved.to_bytes_strict(), saved.to_bytes()), (Ok(bytes.clone()), Ok(bytes.clone())));
    }
    assert_eq!(saved.totals(), totals(2, 1, 1, 2));
    let restored =
        [SequenceTracker::from_bytes(&bytes), SequenceTracker::from_bytes_with_interval(&bytes, 10), SequenceTracker::try_from(&bytes[..])];
    for back in restored.map(Result::unwrap) {
        assert_eq!((but_totals(&back), back.totals()), (but_totals(&saved), Totals::default()));
        assert_eq!(back, saved);
    }
}

/// What the outcomes add up to, since a table was made or restored.
#[derive(Default)]
struct Count(Totals);

impl Count {
    fn count(&mut self, told: Result<Inserted, Error>) {
        *match told {
            Ok(Recorded) => &mut self.0.recorded,
            Ok(WentBack) => &mut self.0.went_back,
            Ok(TooSoon) => &mut self.0.too_soon,
            Err(Error::OfferedOutside | Error::OfferedDrops) => &mut self.0.refused,
            Err(other) => panic!("{other}"),
        } += 1;
    }

    fn add(&mut self, tally: Tally, refused: u64) {
        self.0.recorded += tally.recorded;
        self.0.went_back += tally.went_back;
        self.0.too_soon += tally.too_soon;
        self.0.refused += refused;
    }
}

fn by_chance() {
    let mut all = Totals::default();
    for (seed, capacity) in [(1, 0), (20_160_101, 3), (7, 10), (99, 8192)] {
        let mut chance = Chance(seed);
        let mut tracker = table(capacity, 10, &[]);
        let (mut count, mut seq, mut second) = (Count::default(), 1000, -5000);
        for _ in 0..5000 {
            let mut next = || {
                seq += chance.below(100);
                second += chance.below(21) as i64;
                let offered_seq = if chance.once_in(20) { seq - 900 } else { seq };
                let back = if chance.once_in(8) { second - 25 } else { second };
                pair(offered_seq, if chance.once_in(40) { LAST_SECOND + 1 } else { back })
            };
            let offers = [next(), next(), next()];
            match chance.below(4) {
                0 => match tracker.insert_all(&offers) {
                    Ok(tally) => count.add(tally, 0),
                    Err(ListError::Stopped { before, .. }) => count.add(before, 1),
                    Err(other) => panic!("{other}"),
                },
                1 if capacity == 8192 && chance.once_in(50) => {
                    if let Ok(bytes) = tracker.to_bytes_strict() {
                        tracker = SequenceTracker::from_bytes(&bytes).unwrap();
                        count = Count::default();
                    }
                }
                _ => count.count(tracker.insert(offers[0])),
            }
            assert_eq!(tracker.totals(), count.0, "seed {seed}");
        }
        all = Totals {
            recorded: all.recorded + count.0.recorded,
            went_back: all.went_back + count.0.went_back,
            too_soon: all.too_soon + count.0.too_soon,
            refused: all.refused + count.0.refused,
        };
    }
    assert!(all.recorded > 1000 && all.went_back > 1000 && all.too_soon > 1000 && all.refused > 500, "{all:?}");
}
