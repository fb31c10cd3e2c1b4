//! The archive for AArch64 as `scripts/library-arm` leaves it.

use machines::calls::CALLS;
use machines::driver::Machine;
use machines::kit::{clang, printed};
use std::path::Path;
use std::process::Command;

/// The names that a program or an archive has, of a kind that `nm` knows.
fn names(kind: &str, file: &Path) -> Vec<String> {
    let lines = printed(Command::new("nm").args(["--extern-only", kind]).arg(file));
    let mut names: Vec<String> = lines
        .lines()
        .filter_map(|line| Some(line.rsplit_once(' ')?.1.to_string()))
        .collect();
    names.sort();
    names
}

#[test]
fn it_defines_the_calls_of_the_header_and_nothing_else() {
    let mut calls: Vec<&str> = CALLS.iter().map(|call| call.name).collect();
    calls.sort();
    assert_eq!(names("--defined-only", &Machine::Aarch64.archive()), calls);
}

/// What a compiler may put in by itself, and every C library has.
const OF_ANY_LIBRARY: [&str; 4] = ["memcmp", "memcpy", "memmove", "memset"];

#[test]
fn it_asks_no_more_of_a_c_library_than_to_move_bytes() {
    let asked = names("--undefined-only", &Machine::Aarch64.archive());
    let strange = asked
        .iter()
        .find(|name| !OF_ANY_LIBRARY.contains(&name.as_str()));
    assert_eq!(strange, None);
}

/// The linker is told that no place in the code may change at loading, so that
/// it refuses what depends on its position.
#[test]
fn it_links_into_a_shared_library_for_android() {
    let library = Path::new(env!("CARGO_TARGET_TMPDIR")).join("libhandset.so");
    let linked = printed(
        Command::new(clang())
            .args(["--target=aarch64-linux-android", "-fuse-ld=lld", "-shared"])
            .args(["-nostdlib", "-Wl,-z,text", "-Wl,--fatal-warnings"])
            .arg("-Wl,--whole-archive")
            .arg(Machine::Aarch64.archive())
            .arg("-o")
            .arg(&library),
    );
    assert_eq!(linked, "");
    let calls = names("--defined-only", &library);
    assert_eq!(calls, names("--defined-only", &Machine::Aarch64.archive()));
}
