//! Runs of chance: offers with strict saves and restores between them go as the offers alone, where each restore is at the table's own interval.
use crate::chance::Chance;
use crate::intervals::INTERVALS;
use crate::run::Case;
use crate::tables::{pair, table};
use skutlaneb::{Error, FindOption, Inserted, SequenceTracker, TrackedSeq};

pub const CASES: &[Case] = &[
    ("runs from an empty table of each interval, restored at its own", from_empty),
    ("runs from a restored table of each interval, restored at its own", from_restored),
    ("runs from a new table, restored at the default interval, which is its own", by_default),
];

const RUNS: u64 = 8;

/// Of all runs: the offers by what came of them, the restores, and the saves that were refused by 20.
#[derive(Default)]
struct Counts {
    recorded: u64,
    went_back: u64,
    too_soon: u64,
    outside: u64,
    drops: u64,
    restored: u64,
    wide: u64,
}

impl Counts {
    fn count(&mut self, told: Result<Inserted, Error>) {
        *match told {
            Ok(Inserted::Recorded) => &mut self.recorded,
            Ok(Inserted::WentBack) => &mut self.went_back,
            Ok(Inserted::TooSoon) => &mut self.too_soon,
            Err(Error::OfferedOutside) => &mut self.outside,
            Err(Error::OfferedDrops) => &mut self.drops,
            Err(other) => panic!("{other}"),
        } += 1;
    }

    /// The runs tried what they were to try. At interval 0 nothing comes too soon, and at the greatest nothing is recorded after the first pair.
    fn check(&self, interval_secs: u64) {
        assert!(self.restored > 500 && self.outside > 20 && self.went_back > 50);
        match interval_secs {
            0 => assert!(self.recorded > 1000 && self.drops > 20 && self.wide > 1 && self.too_soon == 0),
            1..=60 => assert!(self.recorded > 1000 && self.drops > 20 && self.wide > 1 && self.too_soon > 500),
            _ => assert!(self.recorded <= RUNS && self.too_soon > 1000),
        }
    }
}

/// Offers that mostly rise, by steps around the interval; now and then one goes back, drops, is outside the years, or goes so far that no strict save takes it.
struct Offers {
    chance: Chance,
    stride: u64,
    seq: u64,
    second: i64,
}

impl Offers {
    fn after(start: &SequenceTracker, seed: u64) -> Offers {
        let stride = 2 * start.interval_secs().clamp(1, 60) + 1;
        let second = start.last_recorded().map_or(-5000, i64::from);
        Offers { chance: Chance(seed), stride, seq: 0, second }
    }

    fn next(&mut self) -> TrackedSeq {
        let chance = &mut self.chance;
        self.seq += if chance.once_in(500) { 1 << 33 } else { chance.below(100) };
        self.second += chance.below(self.stride) as i64;
        let seq = if chance.once_in(20) { self.seq.saturating_sub(1000) } else { self.seq };
        let second = if chance.once_in(8) { self.second - chance.below(30_000) as i64 } else { self.second };
        pair(seq, if chance.once_in(50) { i64::MAX } else { second })
    }
}

type Restore<'a> = &'a dyn Fn(&[u8]) -> Result<SequenceTracker, Error>;

/// The table after a strict save and a restore of what it wrote; none where the save is refused, since the bytes, saved plainly, are not those of the table.
fn reloaded(tracker: &SequenceTracker, restore: Restore) -> Option<SequenceTracker> {
    match tracker.to_bytes_strict() {
        Ok(bytes) => Some(restore(&[&bytes[..], b"following"].concat()).unwrap()),
        Err(why) => {
            assert_eq!(why.number(), 20);
            assert_ne!(restore(&tracker.to_bytes().unwrap()).as_ref(), Ok(tracker));
            None
        }
    }
}

/// A run from a table, beside the offers alone, up to a save that is refused.
fn goes_on(start: &SequenceTracker, seed: u64, restore: Restore, counts: &mut Counts) {
    let (mut stored, mut held) = (start.clone(), start.clone());
    let mut offers = Offers::after(start, seed);
    for _ in 0..400 {
        let offer = offers.next();
        let told = held.insert(offer);
        assert_eq!(stored.insert(offer), told, "interval {}, seed {seed}", start.interval_secs());
        counts.count(told);
        if offers.chance.once_in(3) {
            let Some(back) = reloaded(&stored, restore) else {
                counts.wide += 1;
                return;
            };
            stored = back;
            counts.restored += 1;
        }
        assert_eq!((&stored, stored.last_recorded()), (&held, held.last_recorded()), "interval {}, seed {seed}", start.interval_secs());
        let asked = offers.seq / 2;
        assert_eq!(stored.find_ts(asked, FindOption::RoundDown), held.find_ts(asked, FindOption::RoundDown));
        assert_eq!(stored.to_bytes(), held.to_bytes());
    }
}

fn all_go_on(start: &SequenceTracker, restore: Restore) {
    let mut counts = Counts::default();
    for run in 1..=RUNS {
        goes_on(start, run.wrapping_mul(0x9E37_79B9_7F4A_7C15), restore, &mut counts);
    }
    counts.check(start.interval_secs());
}

fn from_empty() {
    for interval_secs in INTERVALS {
        all_go_on(&table(8192, interval_secs, &[]), &|bytes| SequenceTracker::from_bytes_with_interval(bytes, interval_secs));
    }
}

fn from_restored() {
    // Whoever wrote the bytes: here it is a table of another capacity and another interval.
    let bytes = table(3, 5, &[(0, -900), (0, -800), (0, -700), (0, -600)]).to_bytes_strict().unwrap();
    for interval_secs in INTERVALS {
        let start = SequenceTracker::from_bytes_with_interval(&bytes, interval_secs).unwrap();
        all_go_on(&start, &|bytes| SequenceTracker::from_bytes_with_interval(bytes, interval_secs));
    }
}

fn by_default() {
    all_go_on(&SequenceTracker::new(), &SequenceTracker::from_bytes);
}
