//! Bits of bytes.
use crate::run::Case;
use skutlaneb::bits::{read_bits, sign_extend, write_bits, Place};
use skutlaneb::Error;

pub const CASES: &[Case] = &[
    ("bits are written at a place and read from it", there_and_back),
    ("bits that are not there are refused by 21, 23, 24", refused),
    ("24 tells how many bits are left, at any place and for any width", left),
    ("numbers are extended by their top bit", extended),
];

const START: Place = Place { byte: 0, bit: 0 };

fn there_and_back() {
    let (mut buf, at) = ([0xFF; 10], Place { byte: 0, bit: 3 });
    let after = Place { byte: 8, bit: 3 };
    assert_eq!(write_bits(&mut buf, at, 0x0123_4567_89AB_CDEF, 64), Ok(after));
    assert_eq!((buf[0], buf[8], buf[9]), (0xE0, 0xE0, 0xFF));
    assert_eq!(read_bits(&buf, at, 64), Ok((0x0123_4567_89AB_CDEF, after)));
    assert_eq!(read_bits(&buf, START, 3), Ok((7, at)));
    assert_eq!((Place::default(), read_bits(&[], START, 0)), (START, Ok((0, START))));
    assert!(at < after);
}

fn refused() {
    let mut buf = [5; 2];
    assert_eq!(read_bits(&buf, START, 65), Err(Error::Width));
    assert_eq!(read_bits(&buf, START, 17), Err(Error::BitsShort { left: 16 }));
    assert_eq!(read_bits(&buf, Place { byte: 0, bit: 8 }, 1), Err(Error::BitsShort { left: 0 }));
    assert_eq!(read_bits(&buf, Place { byte: usize::MAX, bit: 0 }, 1), Err(Error::BitsShort { left: 0 }));
    assert_eq!(write_bits(&mut buf, START, 0, 65), Err(Error::Width));
    assert_eq!(write_bits(&mut buf, START, 0, 17), Err(Error::Room { bytes: 3 }));
    assert_eq!(buf, [5; 2]);
}

fn left() {
    let bytes = [0x5A; 10];
    let places =
        [0, 1, 2, 7, 8, 9, 10, 11, usize::MAX / 8, usize::MAX].into_iter().flat_map(|byte| [0, 1, 3, 7, 8, 9, 255].map(|bit| Place { byte, bit }));
    for (at, length) in places.flat_map(|at| [0, 1, 2, 9, 10].map(|length| (at, length))) {
        // Past the end, and with a bit above 7, a place counts as the end.
        let inside = at.byte < length && at.bit < 8;
        let left = if inside { 8 * (length - at.byte) - usize::from(at.bit) } else { 0 };
        for width in 0..=64 {
            match read_bits(&bytes[..length], at, width) {
                Ok(_) => assert!(usize::from(width) <= left, "{width} bits at {at} of {length} bytes"),
                refused => {
                    assert_eq!((refused, left < usize::from(width)), (Err(Error::BitsShort { left: left as u8 }), true), "at {at} of {length} bytes")
                }
            }
        }
        assert_eq!(read_bits(&bytes[..length], at, 65), Err(Error::Width));
    }
    // What is left can be read.
    let at = Place { byte: 8, bit: 3 };
    assert_eq!(read_bits(&bytes, at, 64), Err(Error::BitsShort { left: 13 }));
    assert_eq!(read_bits(&bytes, at, 13), Ok((0x1A5A, Place { byte: 10, bit: 0 })));
}

fn extended() {
    assert_eq!((sign_extend(63, 7), sign_extend(64, 7)), (Ok(63), Ok(-64)));
    assert_eq!((sign_extend(u32::MAX - 64, 7), sign_extend(u32::MAX - 63, 7)), (Ok(63), Ok(-64)));
    assert_eq!((sign_extend(1 << 31, 32), sign_extend(u32::MAX, 32)), (Ok(-(1 << 31)), Ok(-1)));
    assert_eq!((sign_extend(1, 1), sign_extend(4, 1)), (Ok(-1), Ok(0)));
    assert_eq!((sign_extend(0, 0), sign_extend(0, 33)), (Err(Error::Width), Err(Error::Width)));
}
