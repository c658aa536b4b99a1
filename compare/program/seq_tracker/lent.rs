//! Arrays lent to our side: what they lend stands between edges that no call may reach.
use super::chance::Chance;

const EDGE: usize = 4;

#[derive(Clone)]
pub struct Lent<T> {
    all: Vec<T>,
}

impl<T: Copy + PartialEq> Lent<T> {
    /// Lends the values, and then `spare` places; these and the edges hold what `fill` makes.
    pub fn new(values: &[T], spare: usize, mut fill: impl FnMut() -> T) -> Lent<T> {
        let mut all: Vec<T> = (0..EDGE).map(|_| fill()).collect();
        all.extend_from_slice(values);
        all.extend((0..spare + EDGE).map(|_| fill()));
        Lent { all }
    }

    pub fn len(&self) -> usize {
        self.all.len() - 2 * EDGE
    }

    pub fn places(&self) -> &[T] {
        &self.all[EDGE..EDGE + self.len()]
    }

    /// Everything, edges too: what is compared after a call.
    pub fn whole(&self) -> &[T] {
        &self.all
    }

    /// The same, to be kept beside a later call.
    pub fn all(&self) -> Vec<T> {
        self.all.clone()
    }

    pub fn of(&self) -> (*const T, usize) {
        (self.places().as_ptr(), self.len())
    }

    pub fn of_mut(&mut self) -> (*mut T, usize) {
        let n = self.len();
        (self.all[EDGE..].as_mut_ptr(), n)
    }
}

/// What everything is, once these values stand in the first of the lent places: past them it is as before.
pub fn holding<T: Copy>(before: &[T], values: &[T]) -> Vec<T> {
    let mut all = before.to_vec();
    set(&mut all, 0, values);
    all
}

/// Sets the lent places from `at` on.
pub fn set<T: Copy>(all: &mut [T], at: usize, values: &[T]) {
    all[EDGE + at..EDGE + at + values.len()].copy_from_slice(values);
}

pub fn bytes(chance: &mut Chance, n: usize) -> Lent<u8> {
    Lent::new(&[], n, || chance.word() as u8)
}

pub fn seqs(chance: &mut Chance, values: &[u64], spare: usize) -> Lent<u64> {
    Lent::new(values, spare, || chance.word())
}

pub fn secs(chance: &mut Chance, values: &[i64], spare: usize) -> Lent<i64> {
    Lent::new(values, spare, || chance.word() as i64)
}
