//! Tells the linker where the static library is.
use std::path::PathBuf;

fn main() {
    println!("cargo:rerun-if-env-changed=SKUTLANEB_LIB_DIR");
    let arch = std::env::var("CARGO_CFG_TARGET_ARCH").unwrap_or_default();
    assert!(arch == "x86_64", "skutlaneb: the library is built for x86-64, not for {arch}");
    let here = PathBuf::from(std::env::var_os("CARGO_MANIFEST_DIR").expect("cargo sets CARGO_MANIFEST_DIR"));
    let dir = std::env::var_os("SKUTLANEB_LIB_DIR").map_or(here.join("../../target/staticlib"), PathBuf::from);
    let archive = dir.join("libskutlaneb.a");
    assert!(
        archive.is_file(),
        "skutlaneb: {} is missing. `rt staticlib skutlaneb` in the project's folder writes it; SKUTLANEB_LIB_DIR names another folder",
        archive.display()
    );
    println!("cargo:rerun-if-changed={}", archive.display());
    println!("cargo:rustc-link-search=native={}", dir.display());
}
