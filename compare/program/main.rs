//! The real Rust and our static library in one program. `seq_tracker.rs` is included as it stands, and of `utils.rs` the
//! lines from `BitWriter` to the end of `sign_extend`. What compares them is a child module, so that private functions
//! and fields are in reach.
#![no_main] // std's own start-up reads /proc/self/maps, at which an emulator may crash
mod utils {
    include!(env!("UTILS_CUT_RS"));
}
mod seq_tracker {
    include!(env!("SEQ_TRACKER_RS"));
    #[path = "compare.rs"]
    pub(crate) mod compare;
}

#[no_mangle]
pub extern "C" fn main(argc: i32, argv: *const *const std::ffi::c_char) -> i32 {
    let words = (1..argc as usize)
        .map(|i| unsafe { std::ffi::CStr::from_ptr(*argv.add(i)) })
        .map(|w| w.to_string_lossy().into_owned())
        .collect();
    seq_tracker::compare::main(words)
}
