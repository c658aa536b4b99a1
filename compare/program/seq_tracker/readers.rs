//! Readers: the values that are read back, the image's length, and refusals 1 to 9, from good and damaged bytes.
use super::super::*;
use super::chance::{Chance, FIRST_SECOND, LAST_SECOND};
use super::lent::{self, holding};
use super::ours::{self, Answer, OK};
use super::restores::Restores;
use super::tally::Tally;
use super::theirs;
use crate::utils::BitReader;

const REFUSED: [&str; 10] = [
    "", "images refused, 1", "images refused, 2", "images refused, 3", "images refused, 4", "images refused, 5",
    "images refused, 6", "images refused, 7", "images refused, 8", "images refused, 9",
];

/// What the Rust makes of an image: its table, or its refusal in full.
pub type Theirs = Result<SequenceTracker, Answer>;

/// The array whose count is above the room, where that is met before another refusal.
pub fn above_room(bytes: &[u8], room: usize) -> Option<u64> {
    let count = |at: usize| BitReader::new(bytes.get(at..)?).read32(32).map(|n| n as usize);
    if bytes.first() != Some(&1) || bytes.len() < 5 {
        return None;
    }
    if count(5)? > room {
        return Some(0);
    }
    let (len, seqs) = decode_sequence_numbers_with_length(&bytes[5..]).ok()?;
    let header = u32::from_le_bytes(bytes[1..5].try_into().ok()?) as usize;
    if seqs.len() == header && count(5 + len)? > room { Some(1) } else { None }
}

pub fn refused(number: u32, a: u64) -> Answer {
    Answer { number, a, ..OK }
}

/// The list reader into two arrays, of which the shorter has `room` places.
fn decode(tally: &mut Tally, chance: &mut Chance, bytes: &[u8], theirs: &Theirs, room: usize) {
    let longer = chance.below(3) as usize;
    let (more, other) = if chance.below(2) == 0 { (longer, 0) } else { (0, longer) };
    let (mut seqs, mut secs) = (lent::seqs(chance, &[], room + more), lent::secs(chance, &[], room + other));
    let before = (seqs.all(), secs.all());
    let input = || format!("bytes {bytes:02x?}, room {room}");
    let ours = ours::decode(bytes, &mut seqs, &mut secs);
    let after = (seqs.all(), secs.all());
    if let Some(array) = above_room(bytes, room) {
        tally.ruled("images refused, 10", input, &refused(10, array), &ours);
        tally.kept("images refused, 10", input, &before, &after);
        return;
    }
    match theirs {
        Ok(t) => {
            tally.same("images read", input, &Answer { a: t.timestamps.len() as u64, ..OK }, &ours);
            let values = (holding(&before.0, &t.sequence_numbers), holding(&before.1, &t.timestamps));
            tally.holds("images read", input, &values, &after);
        }
        Err(refusal) => {
            let kind = REFUSED[refusal.number as usize];
            tally.same(kind, input, refusal, &ours);
            tally.kept(kind, input, &before, &after);
        }
    }
}

/// The image's length: no array is lent, so every refusal is one of the Rust's.
fn image_len(tally: &mut Tally, bytes: &[u8], theirs: &Theirs) {
    let input = || format!("bytes {bytes:02x?}");
    let ours = ours::image_len(bytes);
    match theirs {
        Ok(_) => tally.same("lengths of images read", input, &refused(0, theirs::image_len(bytes) as u64), &ours),
        Err(refusal) => tally.same("lengths of images refused, 1 to 9", input, refusal, &ours),
    }
}

/// Refusals 11, 12 and 13, as the rules (docs/RULES.md) have them.
pub fn unfit(seqs: &[u64], secs: &[i64]) -> Option<(u32, u64)> {
    let drop = |i: usize| i as u64 + 1;
    let seq = seqs.windows(2).position(|w| w[1] < w[0]).map(|i| (11, drop(i)));
    let sec = secs.windows(2).position(|w| w[1] < w[0]).map(|i| (12, drop(i)));
    let outside = secs.iter().position(|s| !(FIRST_SECOND..=LAST_SECOND).contains(s)).map(|i| (13, i as u64));
    seq.or(sec).or(outside)
}

fn all(tally: &mut Tally, chance: &mut Chance, restores: &mut Restores, bytes: &[u8]) {
    let theirs = theirs::read(bytes);
    image_len(tally, bytes, &theirs);
    let count = theirs.as_ref().map_or(20, |t| t.timestamps.len());
    let more = 1 + chance.index(4);
    let room = chance.of(&[count, count + more, count / 2, 600]);
    decode(tally, chance, bytes, &theirs, room);
    restores.all(tally, chance, bytes, &theirs);
}

/// An image with two bytes in the place of the codes of an array of n values.
fn coded(n: u8, bytes: [u8; 2]) -> Vec<u8> {
    let mut image = vec![1, n, 0, 0, 0, 0, 0, 0, n, 0, 0, 0, 0, 0, 0, 0, 100];
    image.extend(bytes);
    image.extend([0, 0, 0, n, 0, 0, 0, 0, 0, 0, 0, 60, 0, 0]);
    image
}

pub fn exhaustive(tally: &mut Tally) {
    let chance = &mut Chance::new(1);
    let mut restores = Restores::new(chance);
    all(tally, chance, &mut restores, &[]);
    for x in 0..=255 {
        all(tally, chance, &mut restores, &[x]);
        all(tally, chance, &mut restores, &[1, x]);
        (0..=255).for_each(|y| image_len(tally, &[x, y], &theirs::read(&[x, y])));
    }
    for x in 0..=65535u16 {
        for n in [2, 3] {
            let image = coded(n, x.to_be_bytes());
            let theirs = theirs::read(&image);
            image_len(tally, &image, &theirs);
            decode(tally, chance, &image, &theirs, 3);
        }
    }
    let image = theirs::table(8192, 60, &[100, 164, 170, 5000, 5001], &[0, 60, 120, 4000, 1 << 33]).to_bytes();
    for i in 0..image.len() {
        all(tally, chance, &mut restores, &image[..i]);
        for x in 0..=255 {
            let mut changed = image.clone();
            changed[i] = x;
            all(tally, chance, &mut restores, &changed);
        }
    }
}

/// One to three kinds of damage.
fn damage(chance: &mut Chance, bytes: &mut Vec<u8>) {
    for _ in 0..=chance.below(3) {
        let at = chance.below(bytes.len().max(1) as u64) as usize;
        match chance.below(6) {
            0 => bytes.truncate(at),
            1 if at < bytes.len() => bytes[at] ^= 1 << chance.below(8),
            2 if at < bytes.len() => bytes[at] = chance.word() as u8,
            3 if at < bytes.len() => drop(bytes.remove(at)),
            4 => bytes.insert(at, chance.of(&[0, 1, 255])),
            _ => bytes.truncate(bytes.len().saturating_sub(chance.index(12))),
        }
    }
}

pub fn random(tally: &mut Tally, chance: &mut Chance) {
    let mut restores = Restores::new(chance);
    for i in 0..1500 {
        let n = match i {
            0..=1494 => chance.index(10),
            1495..=1498 => chance.index(500),
            _ => 8193,
        };
        let orderly = chance.below(2) == 0;
        let seqs = if orderly { chance.seqs(n) } else { chance.values(n).into_iter().map(|x| x as u64).collect() };
        let secs = if orderly { chance.secs(n) } else { chance.values(n) };
        let mut bytes = theirs::table(8192, 60, &seqs, &secs).to_bytes();
        let follows = chance.index(5);
        bytes.extend(chance.bytes(follows));
        all(tally, chance, &mut restores, &bytes);
        damage(chance, &mut bytes);
        all(tally, chance, &mut restores, &bytes);
        let mut noise = vec![1, chance.below(4) as u8, 0, 0, 0, 0, 0, 0, chance.below(4) as u8];
        let more = chance.index(40);
        noise.extend(chance.bytes(more));
        all(tally, chance, &mut restores, &noise);
    }
}
