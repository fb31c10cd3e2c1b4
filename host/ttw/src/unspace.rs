//! `ttw unspace`: archived files without the spaces that somebody put for the
//! identifiers of header and trailer. What an identifier becomes is the library's
//! to say: it is lent header and trailer as a file of two records, so that a file
//! of any length goes through.

use crate::arguments::Arguments;
use crate::files::{cannot_read, name_of, write_plain};
use crate::kind::{Kind, POINTS, TABLE};
use crate::output::printed;
use crate::stop::{Ended, Outcome, Stop};
use std::fs::File;
use std::io::{self, Read, Write};
use std::ops::Range;
use std::os::unix::fs::FileExt;
use std::path::{Path, PathBuf};
use ttw::calls;

/// What the name of a rewritten file has behind that of the file.
const NEW: &str = ".new";

/// Bytes from a file's beginning on that tell its kind, and bytes that are copied
/// at a time.
const FRONT: u64 = 168;
const BLOCK: u64 = 1 << 16;

/// A kind of file that is rewritten, what it is called, and the call.
struct Form {
    kind: &'static Kind,
    name: &'static str,
    unspace: fn(&mut [u8]) -> u64,
}

static FORMS: [Form; 2] = [
    Form {
        kind: &TABLE,
        name: "table file",
        unspace: calls::unspace_table,
    },
    Form {
        kind: &POINTS,
        name: "point file",
        unspace: calls::unspace_points,
    },
];

/// `ttw unspace`. A file that is of no such kind, or cannot be read or written, is
/// told, and the others go on.
pub fn unspace(given: &Arguments) -> Outcome {
    if given.files.is_empty() {
        let words = "unspace takes one file or more; see: ttw help unspace";
        return Err(Stop::could_not(words.to_string()));
    }
    printed(|out| {
        let (mut refused, mut failed) = (0, 0);
        for path in &given.files {
            match rewritten(path) {
                Ok(said) => writeln!(out, "{said}")?,
                Err(stop) => {
                    match stop {
                        Stop::Refused(_) => refused += 1,
                        _ => failed += 1,
                    }
                    out.flush()?;
                    stop.tell();
                }
            }
        }
        Ok(match failed {
            0 => Ended::after(refused),
            _ => Ended::CouldNot,
        })
    })
}

/// Writes a file anew beside it, and says what was rewritten.
fn rewritten(path: &Path) -> Result<String, Stop> {
    let name = name_of(path);
    let archived = Archived::open(path).map_err(|why| cannot_read(&name, &why))?;
    let Some(archived) = archived else {
        let words = format!("{name}: neither a table file nor a point file, left alone");
        return Err(Stop::Refused(words));
    };
    let ends = archived.ends().map_err(|why| cannot_read(&name, &why))?;
    let mut new = path.as_os_str().to_os_string();
    new.push(NEW);
    let new = PathBuf::from(new);
    write_plain(&new, |file| archived.write(ends.as_ref(), file))?;
    let said = ends.as_ref().map_or(NOT_WHOLE, Ends::said);
    let (kind, new) = (archived.form.name, name_of(&new));
    Ok(format!("{name}: {kind}, {said}: {new}"))
}

/// What is said of a file that is passed through as it came.
const NOT_WHOLE: &str = "not two or more whole records, as it came";

/// A file that may be rewritten, opened.
struct Archived {
    form: &'static Form,
    name: String,
    file: File,
    length: u64,
}

impl Archived {
    /// Opens a plain file; none where its header is that of no such kind.
    fn open(path: &Path) -> io::Result<Option<Archived>> {
        let file = File::open(path)?;
        let there = file.metadata()?;
        if !there.is_file() {
            return Err(io::Error::other("it is not a plain file"));
        }
        let mut front = Vec::new();
        (&file).take(FRONT).read_to_end(&mut front)?;
        let form = FORMS.iter().find(|form| form.kind.begins(&front));
        Ok(form.map(|form| Archived {
            form,
            name: name_of(path),
            file,
            length: there.len(),
        }))
    }

    /// Header and trailer; none where the file is not two or more whole records.
    fn ends(&self) -> io::Result<Option<Ends>> {
        let record = self.form.kind.record;
        let width = record as u64;
        if !self.length.is_multiple_of(width) || self.length < 2 * width {
            return Ok(None);
        }
        let mut before = vec![0; 2 * record];
        let (header, trailer) = before.split_at_mut(record);
        self.file.read_exact_at(header, 0)?;
        self.file.read_exact_at(trailer, self.length - width)?;
        let mut after = before.clone();
        (self.form.unspace)(&mut after);
        Ok(Some(Ends { before, after }))
    }

    /// Writes the file with its ends as they are now.
    fn write(&self, ends: Option<&Ends>, out: &mut File) -> Result<(), Stop> {
        let Some(ends) = ends else {
            return self.copy(0..self.length, out);
        };
        let (header, trailer) = ends.after.split_at(ends.after.len() / 2);
        out.write_all(header)?;
        let body = header.len() as u64..self.length - trailer.len() as u64;
        self.copy(body, out)?;
        Ok(out.write_all(trailer)?)
    }

    /// Copies bytes of the file, so many at a time.
    fn copy(&self, bytes: Range<u64>, out: &mut File) -> Result<(), Stop> {
        let mut block = vec![0; BLOCK as usize];
        let mut at = bytes.start;
        while at < bytes.end {
            let block = &mut block[..BLOCK.min(bytes.end - at) as usize];
            let read = self.file.read_exact_at(block, at);
            read.map_err(|why| cannot_read(&self.name, &why))?;
            out.write_all(block)?;
            at += block.len() as u64;
        }
        Ok(())
    }
}

/// The header and the trailer of a file, as they stand in it and as they are
/// written.
struct Ends {
    before: Vec<u8>,
    after: Vec<u8>,
}

impl Ends {
    /// Which of the two was rewritten.
    fn said(&self) -> &'static str {
        let half = self.before.len() / 2;
        let header = self.before[..half] != self.after[..half];
        let trailer = self.before[half..] != self.after[half..];
        match (header, trailer) {
            (true, true) => "header and trailer rewritten",
            (true, false) => "header rewritten",
            (false, true) => "trailer rewritten",
            (false, false) => "nothing to rewrite",
        }
    }
}
