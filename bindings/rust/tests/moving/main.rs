//! Runs the example that README shows. It has a start of its own, as under an emulator the usual one does not work.
#![no_main]

mod moving {
    include!("../../examples/moving.rs");

    pub fn run() -> bool {
        main().is_ok()
    }
}

#[no_mangle]
pub extern "C" fn main(_argc: i32, _argv: *const *const u8) -> i32 {
    i32::from(!moving::run())
}
