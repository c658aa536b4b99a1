//! Random inputs, the same for the same seed.
use super::ours::Totals;

pub const FIRST_SECOND: i64 = -62_135_596_800;
pub const LAST_SECOND: i64 = 253_402_300_799;

pub struct Chance(u64);

impl Chance {
    pub fn new(seed: u64) -> Chance {
        Chance(seed)
    }

    /// 64 random bits (splitmix64).
    pub fn word(&mut self) -> u64 {
        self.0 = self.0.wrapping_add(0x9e37_79b9_7f4a_7c15);
        let mut z = self.0;
        z = (z ^ (z >> 30)).wrapping_mul(0xbf58_476d_1ce4_e5b9);
        z = (z ^ (z >> 27)).wrapping_mul(0x94d0_49bb_1331_11eb);
        z ^ (z >> 31)
    }

    pub fn below(&mut self, n: u64) -> u64 {
        self.word() % n
    }

    pub fn index(&mut self, n: usize) -> usize {
        self.below(n as u64) as usize
    }

    pub fn of<T: Copy>(&mut self, choices: &[T]) -> T {
        choices[self.below(choices.len() as u64) as usize]
    }

    pub fn bytes(&mut self, n: usize) -> Vec<u8> {
        (0..n).map(|_| self.word() as u8).collect()
    }

    /// A number of up to 64 bits, of every size alike.
    pub fn sized(&mut self) -> u64 {
        let size = self.below(65) as u32;
        if size == 0 { 0 } else { self.word() >> (64 - size) }
    }

    /// An interval that the calls take: one of those that matter, or of any size.
    pub fn interval(&mut self) -> u64 {
        match self.below(2) {
            0 => self.of(&[0, 1, 10, 60, 1 << 40, i64::MAX as u64]),
            _ => self.sized() >> 1,
        }
    }

    /// An interval that they refuse, above 2^63-1.
    pub fn bad_interval(&mut self) -> u64 {
        let any = self.word() | 1 << 63;
        self.of(&[1 << 63, u64::MAX, any])
    }

    /// How many offers a table has counted: none, as many as it may, a few less, or any number.
    pub fn of_every_sum(&mut self) -> u64 {
        let (less, any) = (1 + self.below(9), self.sized());
        self.of(&[0, u64::MAX, u64::MAX - less, any])
    }

    /// Totals of this sum: some of them may be 0, and one may be all of it.
    pub fn totals(&mut self, sum: u64) -> Totals {
        let mut cuts = [0; 3].map(|_: u64| {
            let any = (self.word() as u128 * (sum as u128 + 1) >> 64) as u64;
            self.of(&[0, sum, any, any, any, any])
        });
        cuts.sort();
        Totals { recorded: cuts[0], went_back: cuts[1] - cuts[0], too_soon: cuts[2] - cuts[1], refused: sum - cuts[2] }
    }

    /// Totals whose sum is above 2^64-1: by one, by any number, or so that it wraps to 0 or to a small one.
    pub fn bad_totals(&mut self) -> Totals {
        let any = self.word();
        let four = self.of(&[
            [u64::MAX, 1, 0, 0],
            [u64::MAX, any | 1, 0, 0],
            [u64::MAX, u64::MAX, u64::MAX, u64::MAX],
            [1 << 63, 1 << 63, 0, 0],
            [1 << 62, 1 << 62, 1 << 62, 1 << 62 | any >> 2],
        ]);
        let from = self.index(4);
        let at = |i: usize| four[(from + i) % 4];
        Totals { recorded: at(0), went_back: at(1), too_soon: at(2), refused: at(3) }
    }

    /// A difference of deltas at a row's limit, one beyond, or of any size.
    pub fn step(&mut self) -> i64 {
        const EDGES: [i64; 8] = [0, 63, 255, 2047, 1 << 31, 1 << 32, i64::MAX, 1];
        let d = match self.below(3) {
            0 => 0,
            1 => self.of(&EDGES).wrapping_add(self.below(3) as i64 - 1),
            _ => self.sized() as i64,
        };
        if self.below(2) == 0 { d } else { d.wrapping_neg() }
    }

    /// Values whose differences of deltas are such steps.
    pub fn values(&mut self, n: usize) -> Vec<i64> {
        let (mut value, mut delta) = (self.sized() as i64, 0i64);
        let narrow = self.below(2) == 0;
        (0..n)
            .map(|_| {
                let now = value;
                let step = self.step();
                delta = delta.wrapping_add(if narrow { step % 70_000 } else { step });
                value = value.wrapping_add(delta);
                now
            })
            .collect()
    }

    /// Keys that do not fall and often stay, from `low` to at most `high`.
    pub fn rising(&mut self, n: usize, low: i128, high: i128) -> Vec<i128> {
        let mut at = low + (self.word() as i128) % ((high - low) / 2).max(1);
        if self.below(4) == 0 {
            at = low;
        }
        (0..n)
            .map(|_| {
                let gap = match self.below(32) {
                    0..=7 => 0,
                    8..=15 => 1,
                    16..=23 => self.below(100) as i128,
                    24..=30 => self.below(5_000_000) as i128,
                    _ => self.below(1 << 34) as i128,
                };
                at = (at + gap).min(high);
                at
            })
            .collect()
    }

    pub fn seqs(&mut self, n: usize) -> Vec<u64> {
        self.rising(n, 0, u64::MAX as i128).into_iter().map(|x| x as u64).collect()
    }

    pub fn secs(&mut self, n: usize) -> Vec<i64> {
        self.rising(n, FIRST_SECOND as i128, LAST_SECOND as i128).into_iter().map(|x| x as i64).collect()
    }
}
