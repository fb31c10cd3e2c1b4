//! The kit's compiler, and what other programs say.

use std::path::{Path, PathBuf};
use std::process::Command;

/// What a command prints; it has to end well.
pub fn printed(command: &mut Command) -> String {
    let run = command.output().expect("the command starts");
    let told = String::from_utf8_lossy(&run.stderr);
    assert!(run.status.success(), "{command:?}: {told}");
    String::from_utf8(run.stdout).expect("text")
}

/// The compiler, which has its linker beside it.
pub fn clang() -> PathBuf {
    let guide = printed(Command::new("rt").arg("doc"));
    let kit = Path::new(guide.trim()).parent().expect("the kit");
    kit.join("toolchain/bin/clang")
}
