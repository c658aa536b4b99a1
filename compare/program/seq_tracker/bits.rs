//! Bits: reads, writes and sign extension.
use super::chance::Chance;
use super::lent;
use super::ours::{self, Answer, OK};
use super::tally::Tally;
use crate::utils::{sign_extend, BitReader, BitWriter};

fn given(a: u64, b: u64, c: u64) -> Answer {
    Answer { a, b, c, ..OK }
}

fn refused(number: u32, a: u64) -> Answer {
    Answer { number, a, ..OK }
}

fn extension(tally: &mut Tally, val: u32, bits: u8) {
    let input = || format!("{val} in {bits} bits");
    let ours = ours::sign_extend(val, bits);
    if (1..=32).contains(&bits) {
        let theirs = given(sign_extend(val, bits) as i64 as u64, 0, 0);
        tally.same("sign extensions", input, &theirs, &ours);
    } else {
        tally.ruled("sign extension refused, 23", input, &refused(23, 0), &ours);
    }
}

/// The Rust's reader, with `before` bits read.
fn reader(s: &[u8], before: usize) -> BitReader<'_> {
    let mut reader = BitReader::new(s);
    for _ in 0..before {
        reader.read_bit();
    }
    reader
}

/// How many bits the Rust still reads, one by one, with `before` bits read.
fn left(s: &[u8], before: usize) -> u64 {
    let mut reader = reader(s, before);
    std::iter::from_fn(|| reader.read_bit()).count() as u64
}

/// A read of `width` bits with `before` bits before it.
fn read(tally: &mut Tally, s: &[u8], before: usize, width: u8) {
    let input = || format!("bytes {s:?}, {width} bits from bit {before} on");
    let theirs = match reader(s, before).read64(width) {
        Some(v) => given(v, (before + width as usize) as u64 / 8, (before + width as usize) as u64 % 8),
        None => refused(24, left(s, before)),
    };
    let kind = if theirs.number == 0 { "reads of bits" } else { "reads of bits refused, 24" };
    tally.same(kind, input, &theirs, &ours::read_bits(s, before / 8, (before % 8) as u8, width));
}

pub fn exhaustive(tally: &mut Tally) {
    for bits in 0..=255u8 {
        extension(tally, 0x8000_0001, bits);
    }
    for bits in 1..=12u8 {
        for val in 0..1u32 << bits {
            extension(tally, val, bits);
            extension(tally, val | u32::MAX << bits, bits);
        }
    }
    // At the wider ones: about the top bit and at both ends, and the same with ones above the width, where there is room for them.
    for bits in 13..=32u8 {
        let top = 1u64 << (bits - 1);
        for val in [0, 1, top - 1, top, top + top - 1] {
            extension(tally, val as u32, bits);
            extension(tally, (val | u64::MAX << bits) as u32, bits);
        }
    }
    for x in 0..=255u8 {
        for before in 0..=8 {
            (0..=9).for_each(|width| read(tally, &[x], before, width));
        }
    }
    for x in 0..=65535u16 {
        (0..=12).for_each(|width| read(tally, &x.to_be_bytes(), 5, width));
    }
}

/// Writes one after the other into a dirty buffer, up to the first that does not fit.
fn writes(tally: &mut Tally, chance: &mut Chance) {
    let pushes: Vec<(u64, u8)> = (0..=chance.below(10)).map(|_| (chance.word(), chance.below(65) as u8)).collect();
    let room = chance.below(50) as usize;
    let mut buf = lent::bytes(chance, room);
    let dirty = buf.all();
    let input = || format!("{pushes:?} into {room} bytes that held {dirty:?}");
    let mut place = (0, 0);
    for i in 1..=pushes.len() {
        let mut writer = BitWriter::new();
        pushes[..i].iter().for_each(|&(value, width)| writer.push64(value, width));
        let bytes = writer.finish();
        let bits: usize = pushes[..i].iter().map(|p| p.1 as usize).sum();
        let (value, width) = pushes[i - 1];
        let before = buf.all();
        let ours = ours::write_bits(&mut buf, place.0, place.1, value, width);
        if bytes.len() > room {
            tally.same("writes of bits refused, 21", input, &refused(21, bytes.len() as u64), &ours);
            tally.kept("writes of bits refused, 21", input, &before, &buf.all());
            return;
        }
        place = (bits / 8, (bits % 8) as u8);
        tally.same("writes of bits", input, &given(place.0 as u64, place.1 as u64, 0), &ours);
        tally.holds("writes of bits", input, &lent::holding(&before, &bytes), &buf.all());
    }
}

fn reads(tally: &mut Tally, chance: &mut Chance) {
    let n = chance.below(24) as usize;
    let s = chance.bytes(n);
    let mut before = 0;
    loop {
        let width = chance.below(65) as u8;
        read(tally, &s, before, width);
        before += width as usize;
        if before > n * 8 {
            return;
        }
    }
}

/// Places that are the end, where 0 bits are left, and widths above 64.
fn ends(tally: &mut Tally, chance: &mut Chance) {
    let n = chance.below(5) as usize;
    let s = chance.bytes(n);
    let place = if chance.below(2) == 0 { (n + chance.below(9) as usize, chance.below(8) as u8) } else { (chance.below(9) as usize, 8 + chance.below(248) as u8) };
    let width = chance.of(&[0, 1, 7, 64, 65, 255]);
    let rule = match width {
        65.. => refused(23, 0),
        0 => given(0, n as u64, 0),
        _ => refused(24, 0),
    };
    let input = || format!("bytes {s:?}, {width} bits from byte {} bit {} on", place.0, place.1);
    tally.ruled("reads at a place that is the end", input, &rule, &ours::read_bits(&s, place.0, place.1, width));
}

pub fn random(tally: &mut Tally, chance: &mut Chance) {
    for _ in 0..1000 {
        extension(tally, chance.word() as u32, 1 + chance.below(32) as u8);
        writes(tally, chance);
        reads(tally, chance);
        ends(tally, chance);
    }
}
