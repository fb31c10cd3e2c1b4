//! The C program that makes the calls, compiled for a machine and run on it.

use crate::calls::Lent;
use fuzz::edge::Flush;
use std::fs;
use std::io::{self, BufReader, BufWriter, Read, Write};
use std::path::{Path, PathBuf};
use std::process::{Child, ChildStdin, ChildStdout, Command, Stdio};
use std::sync::OnceLock;

/// A machine that the library is made for.
#[derive(Clone, Copy, Debug, PartialEq, Eq)]
pub enum Machine {
    X86_64,
    Aarch64,
}

impl Machine {
    fn compiler(self) -> &'static str {
        match self {
            Machine::X86_64 => "cc",
            Machine::Aarch64 => "aarch64-linux-gnu-gcc",
        }
    }

    /// The archive of the library for this machine.
    pub fn archive(self) -> PathBuf {
        let archives = root().join("target/staticlib");
        match self {
            Machine::X86_64 => archives.join("libttwibonal.a"),
            Machine::Aarch64 => archives.join("aarch64/libttwibonal.a"),
        }
    }

    /// The driver, compiled for this machine once in a run.
    fn program(self) -> &'static Path {
        static PROGRAMS: [OnceLock<PathBuf>; 2] = [const { OnceLock::new() }; 2];
        PROGRAMS[self as usize].get_or_init(|| self.compile())
    }

    fn compile(self) -> PathBuf {
        let folder = root().join("target/machines");
        fs::create_dir_all(&folder).expect("a folder");
        let program = folder.join(format!("driver-{self:?}"));
        let mut compiler = Command::new(self.compiler());
        compiler
            .args([
                "-std=c11",
                "-O2",
                "-Wall",
                "-Wextra",
                "-Werror",
                "-pedantic",
            ])
            .arg("-I")
            .arg(root().join("include"))
            .arg(Path::new(env!("CARGO_MANIFEST_DIR")).join("driver.c"))
            .arg(self.archive())
            .args(["-static", "-o"])
            .arg(&program);
        let status = compiler.status().expect("the compiler starts");
        assert!(status.success(), "{compiler:?}");
        program
    }

    /// The driver as a command. The handset's processor is emulated as the plainest
    /// of its kind.
    fn command(self) -> Command {
        let program = self.program();
        match self {
            Machine::X86_64 => Command::new(program),
            Machine::Aarch64 => {
                let mut emulator = Command::new("qemu-aarch64");
                emulator.args(["-cpu", "cortex-a53"]).arg(program);
                emulator
            }
        }
    }
}

/// The repository.
pub fn root() -> PathBuf {
    let here = Path::new(env!("CARGO_MANIFEST_DIR"));
    here.join("../..").canonicalize().expect("the repository")
}

/// The driver, running.
pub struct Driver {
    child: Child,
    told: BufWriter<ChildStdin>,
    answers: BufReader<ChildStdout>,
}

/// What a call left behind.
#[derive(Debug, PartialEq, Eq)]
pub struct Left {
    pub answer: u64,
    pub writes: Vec<Vec<u8>>,
}

impl Driver {
    pub fn start(machine: Machine) -> Driver {
        let mut command = machine.command();
        command.stdin(Stdio::piped()).stdout(Stdio::piped());
        let mut child = command.spawn().expect("the driver starts");
        let told = BufWriter::new(child.stdin.take().expect("its input"));
        let answers = BufReader::new(child.stdout.take().expect("its output"));
        Driver {
            child,
            told,
            answers,
        }
    }

    /// Makes a call: what it left behind, and the bytes of stack that it took.
    pub fn make(&mut self, call: &str, flush: Flush, lent: &Lent) -> (Left, u64) {
        let told = self.tell(call, flush, lent);
        told.and_then(|()| self.answer(lent)).unwrap_or_else(|why| {
            let ended = self.child.wait();
            panic!("{call}, flush {flush:?}: {why}; the driver ended: {ended:?}")
        })
    }

    fn tell(&mut self, call: &str, flush: Flush, lent: &Lent) -> io::Result<()> {
        self.tell_slice(call.as_bytes())?;
        self.tell_number((flush == Flush::AtStart).into())?;
        self.tell_slices(&lent.reads)?;
        self.tell_number(lent.numbers.len() as u64)?;
        for number in &lent.numbers {
            self.tell_number(*number)?;
        }
        self.tell_slices(&lent.writes)?;
        self.told.flush()
    }

    fn tell_slices(&mut self, slices: &[Vec<u8>]) -> io::Result<()> {
        self.tell_number(slices.len() as u64)?;
        slices.iter().try_for_each(|slice| self.tell_slice(slice))
    }

    fn tell_slice(&mut self, slice: &[u8]) -> io::Result<()> {
        self.tell_number(slice.len() as u64)?;
        self.told.write_all(slice)
    }

    fn tell_number(&mut self, number: u64) -> io::Result<()> {
        self.told.write_all(&number.to_le_bytes())
    }

    fn answer(&mut self, lent: &Lent) -> io::Result<(Left, u64)> {
        let (answer, stack) = (self.answer_number()?, self.answer_number()?);
        let mut writes = lent.writes.clone();
        for slice in &mut writes {
            self.answers.read_exact(slice)?;
        }
        Ok((Left { answer, writes }, stack))
    }

    fn answer_number(&mut self) -> io::Result<u64> {
        let mut number = [0; 8];
        self.answers.read_exact(&mut number)?;
        Ok(u64::from_le_bytes(number))
    }
}

impl Drop for Driver {
    fn drop(&mut self) {
        // It may have ended by itself, and then there is nothing to do.
        let _ = self.child.kill();
        let _ = self.child.wait();
    }
}
