//! Tells the linker where the proved libraries are: `scripts/archive` leaves
//! them for x86-64, `scripts/library-arm` for AArch64.

use std::path::PathBuf;

fn main() {
    let here = PathBuf::from(std::env::var_os("CARGO_MANIFEST_DIR").expect("cargo sets it"));
    let machine = std::env::var("CARGO_CFG_TARGET_ARCH").expect("cargo sets it");
    let archives = here.join("../../target/staticlib");
    let archives = match machine.as_str() {
        "aarch64" => archives.join(machine),
        _ => archives,
    };
    println!("cargo:rustc-link-search=native={}", archives.display());
    println!("cargo:rerun-if-changed={}", archives.display());
}
