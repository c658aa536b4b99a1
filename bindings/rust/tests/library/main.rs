//! The crate's tests, against the real library.
#![no_main]
mod arrays;
mod bits;
mod chance;
mod claims;
mod dates;
mod errors;
mod halving;
mod images;
mod intervals;
mod lists;
mod pairs;
mod places;
mod questions;
mod raw;
mod reasons;
mod run;
mod runs;
mod stack;
mod tables;
mod times;
mod totals;
mod values;
mod why;

#[no_mangle]
pub extern "C" fn main(_argc: i32, _argv: *const *const u8) -> i32 {
    let tracker = [tables::CASES, pairs::CASES, questions::CASES, why::CASES, lists::CASES, reasons::CASES, totals::CASES, halving::CASES];
    let stored = [images::CASES, intervals::CASES, places::CASES, claims::CASES, runs::CASES];
    let others = [values::CASES, times::CASES, dates::CASES, errors::CASES, arrays::CASES, bits::CASES, raw::CASES, stack::CASES];
    run::run(&[tracker.concat(), stored.concat(), others.concat()].concat())
}
