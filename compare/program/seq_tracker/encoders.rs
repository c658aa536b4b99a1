//! Encoders: the bytes that are written, the length, and strictness.
use super::chance::Chance;
use super::lent;
use super::ours::{self, Answer, OK};
use super::tally::Tally;
use super::theirs;

fn written(n: usize) -> Answer {
    Answer { a: n as u64, ..OK }
}

fn too_short(n: usize) -> Answer {
    Answer { number: 21, a: n as u64, ..OK }
}

/// The first array that the Rust does not read back, and the length of its shortest part that is not read back, less one.
fn not_read_back(seqs: &[u64], secs: &[i64]) -> Option<(u64, u64)> {
    let arrays = [seqs.iter().map(|&x| x as i64).collect::<Vec<i64>>(), secs.to_vec()];
    let (which, values) = arrays.iter().enumerate().find(|(_, values)| !theirs::reads_back(values))?;
    let index = theirs::last_that(0, values.len(), |n| theirs::reads_back(&values[..n]));
    Some((which as u64, index as u64))
}

/// One encoder, into a buffer of `room` bytes.
fn encode(tally: &mut Tally, chance: &mut Chance, strict: bool, seqs: &[u64], secs: &[i64], image: &[u8], room: usize) {
    let mut out = lent::bytes(chance, room);
    let before = out.all();
    let input = || format!("strict {strict}, sequences {seqs:?}, seconds {secs:?}, into {room} bytes");
    let ours = ours::encode(strict, seqs, secs, &mut out);
    let wide = if strict { not_read_back(seqs, secs) } else { None };
    let (kind, theirs) = match (wide, room < image.len()) {
        (Some((array, index)), _) => ("strict encoders refused, 20", Answer { number: 20, a: array, b: index, ..OK }),
        (None, true) => ("encoders refused, 21", too_short(image.len())),
        (None, false) => (if strict { "images written strictly" } else { "images written" }, written(image.len())),
    };
    tally.same(kind, input, &theirs, &ours);
    if theirs.number == 0 {
        tally.holds(kind, input, &lent::holding(&before, image), &out.all());
    } else {
        tally.kept(kind, input, &before, &out.all());
    }
}

pub fn both(tally: &mut Tally, chance: &mut Chance, seqs: &[u64], secs: &[i64]) {
    let image = theirs::table(8192, 60, seqs, secs).to_bytes();
    let input = || format!("sequences {seqs:?}, seconds {secs:?}");
    tally.same("lengths of images", input, &written(image.len()), &ours::encoded_len(seqs, secs));
    let spare = chance.below(20) as usize;
    let short = chance.below(image.len() as u64) as usize;
    for strict in [false, true] {
        encode(tally, chance, strict, seqs, secs, &image, image.len());
        encode(tally, chance, strict, seqs, secs, &image, image.len() + spare);
        encode(tally, chance, strict, seqs, secs, &image, image.len() - 1);
        encode(tally, chance, strict, seqs, secs, &image, short);
    }
}

pub fn random(tally: &mut Tally, chance: &mut Chance) {
    for i in 0..600 {
        let n = match i {
            0..=594 => chance.index(12),
            595..=598 => chance.index(400),
            _ => 8192,
        };
        let seqs: Vec<u64> = chance.values(n).into_iter().map(|x| x as u64).collect();
        let secs = chance.values(n);
        both(tally, chance, &seqs, &secs);
        let (seqs, secs) = (chance.seqs(n), chance.secs(n));
        both(tally, chance, &seqs, &secs);
    }
}
