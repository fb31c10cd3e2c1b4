//! A book's file that one run at a time may replace. The lock is on the file
//! itself, and goes with the process; a run that waited looks whether the file is
//! still the one of that name, and takes the new one where it is not. So what it
//! reads is what the run before it wrote, and no event is lost.

use crate::files::{cannot_read, name_of, read_book, write_plain};
use crate::stop::{tell, Stop};
use crate::system::take_alone;
use std::fs::{self, File};
use std::io::{self, Write};
use std::os::unix::fs::MetadataExt;
use std::path::{Path, PathBuf};
use std::sync::Once;
use ttw::ask;
use ttw::words::book_words;

/// A book's file, open and locked.
pub struct Locked {
    path: PathBuf,
    name: String,
    file: File,
    /// Whether it was made for this run, and goes where it is not written.
    is_new: bool,
}

impl Locked {
    /// Opens a book that stands there.
    pub fn open(path: &Path) -> Result<Locked, Stop> {
        let name = name_of(path);
        let waits = Once::new();
        let tell_once = || {
            waits.call_once(|| {
                tell(&format!(
                    "{name}: waiting for another run to be done with it"
                ));
            });
        };
        let file = opened(path, tell_once).map_err(|why| cannot_read(&name, &why))?;
        Ok(Locked {
            path: path.to_path_buf(),
            name,
            file,
            is_new: false,
        })
    }

    /// Makes the file of a book where nothing of that name stands.
    pub fn create(path: &Path) -> Result<Locked, Stop> {
        let name = name_of(path);
        let cannot = |why: io::Error| Stop::could_not(format!("cannot make {name}: {why}"));
        let locked = Locked {
            path: path.to_path_buf(),
            name: name.clone(),
            file: File::create_new(path).map_err(cannot)?,
            is_new: true,
        };
        take_alone(&locked.file, || {}).map_err(cannot)?;
        Ok(locked)
    }

    /// The book, which the library accepts.
    pub fn read_accepted(&self) -> Result<Vec<u8>, Stop> {
        let book = read_book(&self.file, &self.name)?;
        let refused = |why| Stop::Refused(book_words(&why, &self.name));
        ask::book(&book).map_err(refused)?;
        Ok(book)
    }

    /// Puts this book in the place of the one that stands there, whole or not at
    /// all.
    pub fn replace(mut self, book: &[u8]) -> Result<(), Stop> {
        write_plain(&self.path, |file| Ok(file.write_all(book)?))?;
        self.is_new = false;
        Ok(())
    }
}

impl Drop for Locked {
    /// That the writing failed is told already.
    fn drop(&mut self) {
        if self.is_new {
            let _ = fs::remove_file(&self.path);
        }
    }
}

/// The plain file of that name, locked. What it is comes first: to open a pipe would
/// wait for somebody who writes to it.
fn opened(path: &Path, waits: impl Fn()) -> io::Result<File> {
    loop {
        if !fs::symlink_metadata(path)?.is_file() {
            return Err(io::Error::other("it is not a plain file"));
        }
        let file = File::open(path)?;
        take_alone(&file, &waits)?;
        let (open, named) = (file.metadata()?, fs::symlink_metadata(path)?);
        if (open.dev(), open.ino()) == (named.dev(), named.ino()) {
            return Ok(file);
        }
    }
}
