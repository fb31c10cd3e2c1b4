//! Parts on their way into a folder: each is written whole, read back by the
//! library, compared with what the input has of its codes, and then gets its name.

use super::counts::{code_name, Count, Counts};
use super::form::{Form, Outward};
use super::input::Chain;
use super::rows::{Marks, Rows};
use crate::files::{make_folder, name_of, told_of};
use crate::part::NewFolder;
use crate::stop::Stop;
use std::fs::File;
use std::io::Write;
use std::path::{Path, PathBuf};
use ttw::main_calls::FILES;

/// What parts are made of, and what is to stand in them.
pub struct Parts<'a> {
    form: &'static Form,
    pub rows: &'a [Rows],
    pub records: &'a Chain,
    folder: &'a Path,
    /// What the input has of each code that stands in no part yet.
    pub owed: Counts,
    pub written: u64,
}

/// Codes that go into a part together, or a piece of one that is split.
pub struct Held {
    pub codes: Vec<Outward>,
    /// Of a code that is split, the number of the piece, from 1.
    pub piece: Option<u64>,
    /// Whether no record of these codes is left for another part.
    pub ends: bool,
}

impl Held {
    /// The first code, the last where there are more, and the piece.
    fn name(&self) -> String {
        let [first, last] = [self.codes[0], self.codes[self.codes.len() - 1]].map(code_name);
        match self.piece {
            Some(piece) => format!("{first}.{piece}"),
            None if first == last => first,
            None => format!("{first}-{last}"),
        }
    }
}

impl<'a> Parts<'a> {
    pub fn new(
        form: &'static Form,
        rows: &'a [Rows],
        records: &'a Chain,
        folder: &'a Path,
    ) -> Parts<'a> {
        Parts {
            form,
            rows,
            records,
            folder,
            owed: Counts::new(),
            written: 0,
        }
    }

    /// Begins a part with records of this code.
    pub fn begin(&self, code: Outward) -> Result<Open, Stop> {
        if self.written == 0 {
            make_folder(self.folder)?;
        }
        let place = self.folder.join(code_name(code));
        let begin = || {
            let mut folder = NewFolder::create(&place)?;
            let mut records = folder.file(self.form.names[self.rows.len()])?;
            records.write_all(&self.records.header)?;
            Ok((folder, records))
        };
        let (folder, records) = told_of(&place, begin())?;
        Ok(Open {
            folder,
            records,
            bytes: 0,
            marks: self.rows.iter().map(Rows::marks).collect(),
            place,
        })
    }

    /// Puts records into a part, and marks the rows that they refer to.
    pub fn put(&self, open: &mut Open, given: &Given) -> Result<(), Stop> {
        for (file, place) in &given.rows {
            open.marks[usize::from(*file)].set(*place as usize);
        }
        open.bytes += given.records.len();
        let written = open.records.write_all(&given.records);
        told_of(&open.place, written.map_err(Stop::from))
    }

    /// Ends a part: its rows, its trailer, what it then holds, its name.
    pub fn end(&mut self, mut open: Open, held: &Held) -> Result<(), Stop> {
        let name = held.name();
        let path = self.folder.join(&name);
        told_of(&path, self.fill(&mut open))?;
        let removed = |why: String| Stop::could_not(format!("part {name}: {why}; it is removed"));
        let found = (self.form.found)(open.folder.path()).map_err(|stop| match stop {
            Stop::Refused(why) => removed(why),
            stop => stop,
        })?;
        compare(&mut self.owed, held, &found).map_err(removed)?;
        told_of(&path, open.folder.rename(&path).map_err(Stop::from))?;
        self.written += 1;
        Ok(())
    }

    /// Writes the rows of a part and the trailer of its records.
    fn fill(&self, open: &mut Open) -> Result<(), Stop> {
        let files = self.form.names.iter().zip(self.rows).zip(&open.marks);
        for ((name, rows), marks) in files {
            let mut file = open.folder.file(name)?;
            file.write_all(&rows.file_of(marks)?)?;
            file.sync_all()?;
        }
        let count = open.bytes / self.form.records.record + 2;
        open.records.write_all(&self.records.trailer(count))?;
        Ok(open.records.sync_all()?)
    }

    /// Writes a part of these records.
    pub fn write(&mut self, held: &Held, given: &Given) -> Result<(), Stop> {
        let mut open = self.begin(held.codes[0])?;
        self.put(&mut open, given)?;
        self.end(open, held)
    }
}

/// Records for a part.
pub struct Given {
    pub records: Vec<u8>,
    /// The rows that they refer to, each by its file's place and its own.
    rows: Vec<(u8, u32)>,
}

impl Given {
    /// Looks up the rows of these records. Neighbours mostly share theirs.
    pub fn new(form: &Form, rows: &[Rows], records: Vec<u8>) -> Given {
        let mut places = Vec::new();
        let mut last = [0; FILES];
        for record in records.chunks_exact(form.records.record) {
            for (file, number) in (form.references)(record) {
                if number != 0 && number != last[file] {
                    last[file] = number;
                    let found = rows[file].of(number);
                    places.extend(found.map(|place| (file as u8, place as u32)));
                }
            }
        }
        Given {
            records,
            rows: places,
        }
    }
}

/// A part that is being written.
pub struct Open {
    folder: NewFolder,
    /// The file of its records, and how many bytes of them it has.
    records: File,
    pub bytes: usize,
    marks: Vec<Marks>,
    /// Its place in a message, as long as its last code is not known.
    place: PathBuf,
}

/// Takes what a part has from what is owed; what is wrong about it, in words.
fn compare(owed: &mut Counts, held: &Held, found: &Counts) -> Result<(), String> {
    for code in held.codes.iter().chain(found.keys()) {
        let has = found.get(code).copied().unwrap_or_default();
        let input = owed.get(code).copied().unwrap_or_default();
        let left = input.without(has);
        let is_right = match held.ends {
            true => left == Some(Count::default()),
            false => left.is_some(),
        };
        if !is_right {
            let name = code_name(*code);
            return Err(format!("of {name} it has {has}, the input {input}"));
        }
    }
    for (code, has) in found {
        let left = owed.get(code).and_then(|input| input.without(*has));
        owed.insert(*code, left.unwrap_or_default());
    }
    Ok(())
}

/// Fails unless parts may go into the folder: a new one, or one that is empty, so
/// that parts of two issues never stand side by side.
pub fn check_folder(folder: &Path) -> Result<(), Stop> {
    let entries = match folder.read_dir() {
        Err(why) if why.kind() == std::io::ErrorKind::NotFound => return Ok(()),
        Err(why) => {
            let name = name_of(folder);
            return Err(Stop::could_not(format!("cannot read {name}: {why}")));
        }
        Ok(entries) => entries,
    };
    match entries.count() {
        0 => Ok(()),
        _ => Err(Stop::could_not(format!(
            "{} is not empty: parts go into a new folder or an empty one",
            name_of(folder)
        ))),
    }
}
