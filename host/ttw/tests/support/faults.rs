//! Runs of the command in which the system fails as it is told to, and the calls
//! that were made: `faults.c`, loaded in front of the C library.

use super::{is_emulated, root, run, Folder, Run, TTW};
use std::ffi::OsStr;
use std::path::PathBuf;
use std::process::Command;

/// The faults of one test, compiled into its folder.
pub struct Faults<'a> {
    folder: &'a Folder,
    library: PathBuf,
}

impl<'a> Faults<'a> {
    pub fn new(folder: &'a Folder) -> Faults<'a> {
        let library = folder.0.join("faults.so");
        let source = root().join("host/ttw/tests/support/faults.c");
        let mut cc = Command::new("cc");
        cc.args(["-std=gnu11", "-Wall", "-Wextra", "-Werror"])
            .args(["-shared", "-fPIC", "-o"])
            .arg(&library)
            .arg(source)
            .arg("-ldl");
        run(&mut cc).prints("");
        Faults { folder, library }
    }

    /// A run under these settings of `faults.c`, each a name and a value, with
    /// the calls that it wrote down.
    pub fn ttw<S: AsRef<OsStr>>(&self, settings: &[(&str, &str)], arguments: &[S]) -> Seen {
        let log = self.folder.0.join("faults.log");
        let _ = std::fs::remove_file(&log);
        let preload = self.library.display().to_string();
        // An emulator would load the library for itself, and cannot.
        let (name, value) = match is_emulated() {
            true => ("QEMU_SET_ENV", format!("LD_PRELOAD={preload}")),
            false => ("LD_PRELOAD", preload),
        };
        let mut command = Command::new(TTW);
        command.env(name, value).env("FAULTS_LOG", &log);
        command.envs(settings.iter().copied());
        let run = run(command.args(arguments).current_dir(&self.folder.0));
        let calls = std::fs::read_to_string(&log).unwrap_or_default();
        Seen {
            run,
            calls: calls.lines().map(str::to_string).collect(),
        }
    }
}

impl Faults<'_> {
    /// A run in which a byte of a file is written as another.
    pub fn spoiled(&self, spoil: &str, arguments: &[&str]) -> Run {
        self.ttw(&[("FAULTS_SPOIL", spoil)], arguments).run
    }
}

/// A run, and the calls that it made.
pub struct Seen {
    pub run: Run,
    pub calls: Vec<String>,
}

impl Seen {
    /// The names of the parts that were created.
    pub fn parts(&self) -> Vec<&str> {
        let created = self
            .calls
            .iter()
            .filter_map(|call| call.strip_prefix("create "));
        created.filter_map(|call| call.split(' ').next()).collect()
    }
}
