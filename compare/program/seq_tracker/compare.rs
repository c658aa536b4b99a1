//! Compares every exported call with the Rust: `compare [seed N] [rounds N]`. `compare bench` is for the counter, and
//! `compare time` tells times.

mod bench;
mod bits;
mod chance;
mod dates;
mod encoders;
mod halving;
mod lent;
mod lists;
mod lookups;
mod offers;
mod ours;
mod questions;
mod readers;
mod refusals;
mod restores;
mod stops;
mod stores;
mod tally;
mod theirs;
mod totals;
mod why;

use chance::Chance;
use tally::Tally;

const SEED: u64 = 20160101;

/// What is random is done so many times over; the exhaustive parts are done once.
const ROUNDS: u64 = 100;

fn number(words: &[String], name: &str, default: u64) -> u64 {
    match words.iter().position(|w| w == name) {
        Some(i) => words.get(i + 1).and_then(|w| w.parse().ok()).unwrap_or_else(|| {
            eprintln!("compare: {name} wants a number");
            std::process::exit(2)
        }),
        None => default,
    }
}

pub(crate) fn main(words: Vec<String>) -> i32 {
    if let Some(word) = words.first().filter(|w| ["bench", "time"].contains(&w.as_str())) {
        bench::main(word == "time");
        return 0;
    }
    // the Rust refuses an offer by a panic, which says nothing here; any other ends the program
    std::panic::set_hook(Box::new(|panic| {
        let said = panic.to_string();
        if !said.contains("must be monotonic") {
            println!("{said}");
            std::process::exit(1);
        }
    }));
    let (seed, rounds) = (number(&words, "seed", SEED), number(&words, "rounds", ROUNDS));
    println!("seed {seed}, rounds {rounds}");
    let (mut tally, mut chance) = (Tally::new(), Chance::new(seed));
    bits::exhaustive(&mut tally);
    readers::exhaustive(&mut tally);
    offers::exhaustive(&mut tally);
    lists::exhaustive(&mut tally);
    lookups::exhaustive(&mut tally);
    questions::exhaustive(&mut tally);
    why::exhaustive(&mut tally);
    halving::exhaustive(&mut tally);
    dates::exhaustive(&mut tally);
    for _ in 0..rounds {
        bits::random(&mut tally, &mut chance);
        encoders::random(&mut tally, &mut chance);
        readers::random(&mut tally, &mut chance);
        offers::random(&mut tally, &mut chance);
        lists::random(&mut tally, &mut chance);
        lookups::random(&mut tally, &mut chance);
        stores::random(&mut tally, &mut chance);
        refusals::random(&mut tally, &mut chance);
        totals::random(&mut tally, &mut chance);
    }
    // dates last, then halving, then many questions, and then reasons: what is random before them is the same as without them
    for _ in 0..rounds {
        dates::random(&mut tally, &mut chance);
    }
    for _ in 0..rounds {
        halving::random(&mut tally, &mut chance);
    }
    for _ in 0..rounds {
        questions::random(&mut tally, &mut chance);
        refusals::questions(&mut tally, &mut chance);
    }
    for _ in 0..rounds {
        why::random(&mut tally, &mut chance);
        refusals::reasons(&mut tally, &mut chance);
    }
    tally.print();
    0
}
