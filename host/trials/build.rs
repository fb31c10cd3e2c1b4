//! Tells the linker where `scripts/archive` leaves the proved libraries.

use std::path::PathBuf;

fn main() {
    let here = PathBuf::from(std::env::var_os("CARGO_MANIFEST_DIR").expect("cargo sets it"));
    let archives = here.join("../../target/staticlib");
    println!("cargo:rustc-link-search=native={}", archives.display());
    println!("cargo:rerun-if-changed={}", archives.display());
}
