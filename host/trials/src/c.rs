//! C programs of the tests: compiled from the header alone without a warning,
//! linked with the library, and run.

use std::path::{Path, PathBuf};
use std::process::{id, Command, Output};
use std::{env, fs};

/// A folder of its own for one run of a test, removed with all it holds.
pub struct Folder(pub PathBuf);

impl Folder {
    pub fn new(name: &str) -> Folder {
        let path = env::temp_dir().join(format!("ttwibonal-{name}-{}", id()));
        fs::create_dir(&path).expect("a new folder");
        Folder(path)
    }

    /// A file of these bytes in the folder.
    pub fn file(&self, name: &str, bytes: &[u8]) -> PathBuf {
        let path = self.0.join(name);
        fs::write(&path, bytes).expect("a written file");
        path
    }

    /// The program of that name, `tests/NAME.c`, compiled into the folder.
    pub fn program(&self, name: &str) -> Command {
        self.compiled(name, "cc", &["-std=c11"])
    }

    /// The same, compiled as C++; none where no such compiler is there for the machine that `cc` compiles for.
    pub fn cpp_program(&self, name: &str) -> Option<Command> {
        let there = machine_of("c++").is_some_and(|machine| machine_of("cc") == Some(machine));
        there.then(|| self.compiled(name, "c++", &["-x", "c++", "-std=c++11"]))
    }

    fn compiled(&self, name: &str, compiler: &str, language: &[&str]) -> Command {
        let here = Path::new(env!("CARGO_MANIFEST_DIR"));
        let program = self.0.join(name);
        let mut cc = Command::new(compiler);
        cc.args(["-Wall", "-Wextra", "-Werror", "-pedantic"])
            .args(language)
            .arg("-I")
            .arg(here.join("../../include"))
            .arg(here.join(format!("tests/{name}.c")))
            .args(["-x", "none"])
            .arg(here.join("../../target/staticlib/libttwibonal.a"))
            .args(["-lpthread", "-o"])
            .arg(&program);
        assert_eq!(printed(&mut cc), "");
        Command::new(program)
    }
}

impl Drop for Folder {
    fn drop(&mut self) {
        // A folder that stays behind is no reason to fail.
        let _ = fs::remove_dir_all(&self.0);
    }
}

/// The machine that a compiler compiles for; none where there is no such compiler.
fn machine_of(compiler: &str) -> Option<Vec<u8>> {
    let output = Command::new(compiler).arg("-dumpmachine").output().ok()?;
    Some(output.stdout)
}

/// What a command printed; it has to end well and to print no error.
pub fn printed(command: &mut Command) -> String {
    let Output {
        status,
        stdout,
        stderr,
    } = command.output().expect("the command starts");
    let errors = String::from_utf8_lossy(&stderr);
    assert!(status.success() && errors.is_empty(), "{status}: {errors}");
    String::from_utf8_lossy(&stdout).into_owned()
}
