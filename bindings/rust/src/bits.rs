//! Bits of bytes, the most significant first. The numbers are those of the list of refusals in docs/RULES.md.
use crate::calls::{self, done};
use crate::Error;
use std::fmt;

/// A place between bits: a byte, counted from 0, and a bit of it from 0, the most significant, to 7. For the calls here one past the end, or with a bit above 7,
/// counts as the end. Where an image stops is told by one: [`Error::place`].
#[derive(Clone, Copy, Debug, Default, PartialEq, Eq, PartialOrd, Ord, Hash)]
pub struct Place {
    pub byte: usize,
    pub bit: u8,
}

impl fmt::Display for Place {
    fn fmt(&self, f: &mut fmt::Formatter<'_>) -> fmt::Result {
        write!(f, "byte {}, bit {}", self.byte, self.bit)
    }
}

/// Reads 0 to 64 bits: their value, and the place after them. Refused where the width is above 64 (23), then where fewer bits are left (24, with how many are).
pub fn read_bits(bytes: &[u8], at: Place, width: u8) -> Result<(u64, Place), Error> {
    let read = done(calls::read_bits(bytes, at.byte, at.bit, width))?;
    Ok((read.a, Place { byte: read.b as usize, bit: read.c as u8 }))
}

/// Writes the low 0 to 64 bits of a value, and answers the place after them. What is left of the last byte written becomes 0; a write of no bits changes nothing. Refused where the width is above 64 (23),
/// then where the buffer is too short (21, with the bytes needed); the buffer is then as it was.
pub fn write_bits(buf: &mut [u8], at: Place, value: u64, width: u8) -> Result<Place, Error> {
    let written = done(calls::write_bits(buf, at.byte, at.bit, value, width))?;
    Ok(Place { byte: written.a as usize, bit: written.b as u8 })
}

/// The low `bits` bits of a value as a signed number. Refused where the width is outside 1 to 32 (23).
pub fn sign_extend(val: u32, bits: u8) -> Result<i64, Error> {
    done(calls::sign_extend(val, bits)).map(|told| told.a as i64)
}
