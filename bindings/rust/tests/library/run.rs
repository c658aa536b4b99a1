//! Runs cases. Under an emulator the usual start of a Rust program does not work, so the tests have a start of their own and run themselves.

pub type Case = (&'static str, fn());

/// Runs each case. The last line is `N passed, M failed`, and the exit status 0 only if nothing failed.
pub fn run(cases: &[Case]) -> i32 {
    let mut failed = 0;
    for (name, case) in cases {
        let passed = std::panic::catch_unwind(case).is_ok();
        println!("{} {name}", if passed { "ok" } else { "FAILED" });
        failed += usize::from(!passed);
    }
    println!("{} passed, {failed} failed", cases.len() - failed);
    i32::from(failed != 0)
}
