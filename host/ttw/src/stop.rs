//! How a command ends, and how that is told.

use std::io::{self, Write};
use std::process::ExitCode;

/// A command that came to its end.
#[derive(Clone, Copy, PartialEq, Eq)]
pub enum Ended {
    Done,
    /// Something was refused, and has been told.
    Refused,
    /// Something could not be written, and has been told.
    CouldNot,
}

impl Ended {
    /// The end of a run that was refused so many times.
    pub fn after(refused: u64) -> Ended {
        if refused == 0 {
            Ended::Done
        } else {
            Ended::Refused
        }
    }
}

/// A command that stopped before its end.
pub enum Stop {
    /// The library refused, in words.
    Refused(String),
    /// Wrong usage, or the file system failed.
    CouldNot(String),
    /// What was to be printed was not taken.
    Lost(io::Error),
    /// Nobody reads the output any more, as behind `head`.
    Unread,
}

impl Stop {
    pub fn could_not(words: String) -> Stop {
        Stop::CouldNot(words)
    }

    /// Tells why.
    pub fn tell(&self) {
        match self {
            Stop::Refused(words) => tell(words),
            Stop::CouldNot(words) => tell(&format!("ttw: {words}")),
            Stop::Lost(why) => tell(&format!("ttw: cannot print: {why}")),
            Stop::Unread => {}
        }
    }
}

/// An error of printing.
impl From<io::Error> for Stop {
    fn from(why: io::Error) -> Stop {
        if why.kind() == io::ErrorKind::BrokenPipe {
            Stop::Unread
        } else {
            Stop::Lost(why)
        }
    }
}

pub type Outcome = Result<Ended, Stop>;

/// Tells what has to be told, and gives the exit status: 0 done, 1 something
/// was refused, 2 could not.
pub fn status(outcome: Outcome) -> ExitCode {
    if let Err(stop) = &outcome {
        stop.tell();
    }
    match outcome {
        Ok(Ended::Done) => ExitCode::SUCCESS,
        Ok(Ended::Refused) | Err(Stop::Refused(_)) => ExitCode::from(1),
        Ok(Ended::CouldNot) | Err(Stop::CouldNot(_) | Stop::Lost(_) | Stop::Unread) => {
            ExitCode::from(2)
        }
    }
}

/// A line for the person at the screen. Where even that cannot be printed, the
/// exit status still says how the run ended.
pub fn tell(line: &str) {
    let _ = writeln!(io::stderr(), "{line}");
}
