//! Counts what agreed, by kind. The first difference ends the program, with its input in full.
use std::collections::BTreeMap;
use std::fmt::Debug;

pub struct Tally {
    /// answers that the Rust gives too
    rust: BTreeMap<&'static str, u64>,
    /// answers about dates that chrono gives too
    chrono: BTreeMap<&'static str, u64>,
    /// answers that the Rust does not have, and of which chrono has none or another one: the rules (docs/RULES.md) alone say what they are
    rules: BTreeMap<&'static str, u64>,
    /// refused calls after which every lent place was looked at
    untouched: u64,
}

fn differ(kind: &str, what: &str, input: String, theirs: &dyn Debug, ours: &dyn Debug) -> ! {
    println!("a difference in {kind}\ninput: {input}\n{what}: {theirs:?}\nours: {ours:?}");
    std::process::exit(1)
}

impl Tally {
    pub fn new() -> Tally {
        Tally { rust: BTreeMap::new(), chrono: BTreeMap::new(), rules: BTreeMap::new(), untouched: 0 }
    }

    /// The Rust's answer and ours.
    pub fn same<A: PartialEq + Debug>(&mut self, kind: &'static str, input: impl Fn() -> String, theirs: &A, ours: &A) {
        if theirs != ours {
            differ(kind, "the Rust", input(), theirs, ours);
        }
        *self.rust.entry(kind).or_default() += 1;
    }

    /// chrono's answer and ours.
    pub fn dated<A: PartialEq + Debug>(&mut self, kind: &'static str, input: impl Fn() -> String, theirs: &A, ours: &A) {
        if theirs != ours {
            differ(kind, "chrono", input(), theirs, ours);
        }
        *self.chrono.entry(kind).or_default() += 1;
    }

    /// What the rules say and our answer.
    pub fn ruled<A: PartialEq + Debug>(&mut self, kind: &'static str, input: impl Fn() -> String, rule: &A, ours: &A) {
        if rule != ours {
            differ(kind, "the rules", input(), rule, ours);
        }
        *self.rules.entry(kind).or_default() += 1;
    }

    /// What a lent array should hold after a call, and what it holds.
    pub fn holds<A: PartialEq + Debug>(&mut self, kind: &'static str, input: impl Fn() -> String, should: &A, does: &A) {
        if should != does {
            differ(kind, "the lent places should hold", input(), should, does);
        }
    }

    /// The same after a refused call.
    pub fn kept<A: PartialEq + Debug>(&mut self, kind: &'static str, input: impl Fn() -> String, before: &A, after: &A) {
        self.holds(kind, input, before, after);
        self.untouched += 1;
    }

    pub fn print(&self) {
        let total = |counts: &BTreeMap<_, u64>| counts.values().sum::<u64>();
        for (head, counts) in [
            ("compared with the Rust:", &self.rust),
            ("compared with chrono:", &self.chrono),
            ("held to the rules (docs/RULES.md), where the Rust has no answer, and chrono none or another one:", &self.rules),
        ] {
            println!("\n{head}");
            counts.iter().for_each(|(kind, n)| println!("  {kind}: {n}"));
            println!("  in all: {}", total(counts));
        }
        println!("\nrefused calls that left every lent place as it was: {}", self.untouched);
        println!("\n{} comparisons with the Rust and {} with chrono, 0 differences", total(&self.rust), total(&self.chrono));
    }
}
