//! How far a long run has come, for a person who waits.

use std::io::{self, IsTerminal, Write};

/// One line that is written over; silent where nobody looks at a screen.
pub struct Progress {
    shown: bool,
    done: usize,
    of: usize,
}

impl Progress {
    pub fn new(of: usize) -> Progress {
        Progress {
            shown: of > 1 && io::stderr().is_terminal(),
            done: 0,
            of,
        }
    }

    pub fn step(&mut self, name: &str) {
        self.done += 1;
        self.print(&format!("{name} ({} of {})", self.done, self.of));
    }

    /// Makes room for a line that stays.
    pub fn clear(&self) {
        self.print("");
    }

    /// Progress that cannot be printed is no reason to stop.
    fn print(&self, text: &str) {
        if self.shown {
            let _ = write!(io::stderr(), "\r\x1b[K{text}");
        }
    }
}
