//! What the tests of the command share.

#![allow(dead_code)] // Each test program uses a part of it.

pub mod faults;
pub mod pages;
pub mod tree;

use paper::make::Pair;
use std::ffi::OsStr;
use std::fs;
use std::path::{Path, PathBuf};
use std::process::{Command, Output};
use std::sync::atomic::{AtomicU32, Ordering};

/// The repository.
pub fn root() -> PathBuf {
    let here = Path::new(env!("CARGO_MANIFEST_DIR"));
    here.join("../..").canonicalize().expect("the repository")
}

/// The command.
pub const TTW: &str = env!("CARGO_BIN_EXE_ttw");

/// How a run ends in which the one pack could not be written.
pub const NOT_WRITTEN: &str = "packs written: 0, codes refused: 0, packs not written: 1";

/// Everything that prints labels or rows of a pair or labels of a pack to their end, or sectors, each way once, in a folder with a pair and
/// its pack.
pub const PRINTING_LABELS: [&str; 13] = [
    "labels changes1 changes2",
    "labels changes1 changes2 --code AB1",
    "labels changes1 changes2 --view 1",
    "labels changes1 changes2 --view 1 --count 1",
    "labels changes1 changes2 --code AB1 --nth 1",
    "labels changes1 changes2 --code AB1 --nth 1 --count 1",
    "show AB1.pack",
    "show AB1.pack --nth 1",
    "show AB1.pack --nth 1 --count 1",
    "show AB1.pack --suffix",
    "show AB1.pack --suffix --nth 1",
    "show AB1.pack --sectors",
    "csv changes1 changes2",
];

/// The names of a set's files in its folder, in the set's order.
pub const SET: [&str; 7] = ["g", "f", "e", "d", "c", "b", "a"];

/// A folder of its own for one test, removed with all it holds.
pub struct Folder(pub PathBuf);

impl Folder {
    pub fn new() -> Folder {
        static NEXT: AtomicU32 = AtomicU32::new(0);
        let number = NEXT.fetch_add(1, Ordering::Relaxed);
        let name = format!("ttw-test-{}-{number}", std::process::id());
        let path = std::env::temp_dir().join(name);
        fs::create_dir(&path).expect("a new folder");
        Folder(path)
    }

    pub fn put(&self, name: &str, bytes: &[u8]) -> PathBuf {
        let path = self.0.join(name);
        fs::write(&path, bytes).expect("a written file");
        path
    }

    /// A pair of files, as `changes1` and `changes2`.
    pub fn with_pair(pair: &Pair) -> Folder {
        let folder = Folder::new();
        folder.put("changes1", &pair.table);
        folder.put("changes2", &pair.points);
        folder
    }

    /// The same with the pack of AB1, as `AB1.pack`.
    pub fn with_pack(pair: &Pair) -> Folder {
        let folder = Folder::with_pair(pair);
        let cut = folder.shell("\"$TTW\" pack changes1 changes2 --code AB1 --out .");
        cut.only_tells(0, "packs written: 1, codes refused: 0");
        folder
    }

    /// The files of a Mainfile set in a folder below this one, `set`, under names
    /// that say nothing of their kinds.
    pub fn put_set(&self, files: &[Vec<u8>; 7]) {
        fs::create_dir(self.0.join("set")).expect("a new folder");
        for (name, file) in SET.iter().zip(files) {
            self.put(&format!("set/{name}"), file);
        }
    }

    /// The names of the files in a folder below this one, sorted.
    pub fn names(&self, below: &str) -> Vec<String> {
        names_in(&self.0.join(below))
    }

    pub fn read(&self, name: &str) -> Vec<u8> {
        fs::read(self.0.join(name)).expect("a file")
    }

    /// Runs `ttw` in the folder.
    pub fn ttw<S: AsRef<OsStr>>(&self, arguments: &[S]) -> Run {
        run(Command::new(TTW).args(arguments).current_dir(&self.0))
    }

    /// Runs a line of shell in the folder; `$TTW` is the command.
    pub fn shell(&self, line: &str) -> Run {
        let mut shell = Command::new("bash");
        shell.args(["-c", line]).env("TTW", TTW);
        run(shell.current_dir(&self.0))
    }
}

impl Drop for Folder {
    fn drop(&mut self) {
        // A folder that stays behind is no reason to fail.
        let _ = fs::remove_dir_all(&self.0);
    }
}

/// The names of what stands in a folder, sorted; none where there is no such folder.
pub fn names_in(folder: &Path) -> Vec<String> {
    let Ok(entries) = fs::read_dir(folder) else {
        return Vec::new();
    };
    let mut names: Vec<String> = entries
        .map(|entry| entry.expect("an entry").file_name())
        .map(|name| name.to_string_lossy().into_owned())
        .collect();
    names.sort();
    names
}

/// What a run gave: exit status, output and messages.
#[derive(Debug, PartialEq, Eq)]
pub struct Run {
    pub status: Option<i32>,
    pub out: String,
    pub told: String,
}

impl Run {
    /// Fails unless the run ended so, printed nothing and told this.
    #[track_caller]
    pub fn only_tells(&self, status: i32, told: &str) {
        let expected = Run {
            status: Some(status),
            out: String::new(),
            told: format!("{told}\n"),
        };
        assert_eq!(*self, expected);
    }

    /// Fails unless the run was done and printed this.
    #[track_caller]
    pub fn prints(&self, out: &str) {
        assert_eq!((self.status, self.out.as_str()), (Some(0), out), "{self:?}");
    }
}

/// `examples/handset.c`, compiled into the folder from the header alone.
pub fn compiled_handset(folder: &Folder) -> PathBuf {
    let program = folder.0.join("handset");
    let mut cc = Command::new("cc");
    cc.args(["-std=c11", "-g", "-Wall", "-Wextra", "-Werror", "-pedantic"])
        .arg("-I")
        .arg(root().join("include"))
        .arg(root().join("examples/handset.c"))
        .arg(root().join("target/staticlib/libttwibonal.a"))
        .arg("-o")
        .arg(&program);
    run(&mut cc).prints("");
    program
}

/// Whether a program is on the path.
pub fn is_installed(program: &str) -> bool {
    let found = |folder: PathBuf| folder.join(program).is_file();
    std::env::var_os("PATH").is_some_and(|path| std::env::split_paths(&path).any(found))
}

/// Whether another processor plays the one that this is compiled for.
pub fn is_emulated() -> bool {
    std::env::var_os("TTW_EMULATED").is_some()
}

pub fn run(command: &mut Command) -> Run {
    // Under `make test`, a `make` that is run here would take itself for a part
    // of that one and say where it works.
    for name in ["MAKEFLAGS", "MAKELEVEL", "MFLAGS"] {
        command.env_remove(name);
    }
    let Output {
        status,
        stdout,
        stderr,
    } = command.output().expect("the command starts");
    Run {
        status: status.code(),
        out: String::from_utf8_lossy(&stdout).into_owned(),
        told: String::from_utf8_lossy(&stderr).into_owned(),
    }
}
