//! The seven files of a Mainfile set, told apart by their headers.

use crate::files::{name_of, read_whole};
use crate::kind::{Kind, MAIN};
use crate::progress::Progress;
use crate::source::{Packable, Source, Words};
use crate::stop::Stop;
use std::fs::{self, File};
use std::io::{self, Read};
use std::path::{Path, PathBuf};
use ttw::ask::{Refusal, Run};
use ttw::main_calls::FILES;
use ttw::main_set::MainSet;
use ttw::words::{main_words, MAIN_NAMES};

/// Where the address file stands in a set.
const ADDRESSES: usize = FILES - 1;

/// Bytes of a file that tell its kind: as many as an address has.
const FRONT: u64 = 88;

/// Seven files as they were read.
pub struct Seven {
    files: [Vec<u8>; FILES],
}

impl Seven {
    /// Reads seven files in any order, or those of one folder, that the library
    /// accepts.
    pub fn read_accepted(given: &[PathBuf]) -> Result<Seven, Stop> {
        let seven = Seven::read(given)?;
        let views = seven.set().views();
        views.map_err(|why| Stop::Refused(main_words(&why, "files")))?;
        Ok(seven)
    }

    /// Reads each file once, into memory that fits it.
    fn read(given: &[PathBuf]) -> Result<Seven, Stop> {
        let mut progress = Progress::new(FILES);
        let mut files: [Vec<u8>; FILES] = Default::default();
        let found = told_apart(given, Addresses::InOneFile)?;
        for (index, begun) in found.into_iter().flatten().enumerate() {
            progress.step(&format!("reading the {} file", MAIN[index].name));
            let most = MAIN[index].most * MAIN[index].record + 1;
            let read = begun.rest(most);
            if read.is_err() {
                progress.clear();
            }
            files[index] = read?;
        }
        progress.clear();
        Ok(Seven { files })
    }

    fn set(&self) -> MainSet<'_> {
        MainSet(self.files.each_ref().map(Vec::as_slice))
    }

    /// A line for each file with its records, the last with the views too.
    pub fn counts(&self) -> Result<String, Stop> {
        let refused = |why| Stop::Refused(main_words(&why, "files"));
        let views = self.set().views().map_err(refused)?;
        let line = |(kind, file): (&Kind, &Vec<u8>)| {
            format!("{}: {} records", kind.name, file.len() / kind.record)
        };
        let lines: Vec<String> = MAIN.iter().zip(&self.files).map(line).collect();
        Ok(format!("{}, {views} views\n", lines.join("\n")))
    }
}

impl Packable for Seven {
    const WORDS: Words = main_words;
    const LIKELY_PACK: usize = 1 << 21;

    fn codes(&self) -> Result<Vec<([u8; 4], u64)>, Refusal> {
        self.set().codes()
    }

    fn build(&self, code: &[u8]) -> Result<Vec<u8>, Refusal> {
        self.set().build(code, Self::LIKELY_PACK)
    }
}

impl Source for Seven {
    const PAGE: usize = 1 << 24;

    fn label(&self, view: u64) -> Result<Vec<u8>, Refusal> {
        self.set().label(view)
    }

    fn code_label(&self, code: &[u8], k: u64) -> Result<Vec<u8>, Refusal> {
        self.set().code_label(code, k)
    }

    fn labels(&self, first: u64, count: u64, out: &mut [u8]) -> Result<Run, Refusal> {
        self.set().labels(first, count, out)
    }

    fn code_labels(
        &self,
        code: &[u8],
        first: u64,
        count: u64,
        out: &mut [u8],
    ) -> Result<Run, Refusal> {
        self.set().code_labels(code, first, count, out)
    }

    fn list(&self, first: u64, count: u64, out: &mut [u8]) -> Result<Run, Refusal> {
        self.set().list(first, count, out)
    }

    fn code_list(
        &self,
        code: &[u8],
        first: u64,
        count: u64,
        out: &mut [u8],
    ) -> Result<Run, Refusal> {
        self.set().code_list(code, first, count, out)
    }

    fn csv_rows(&self, first: u64, count: u64, out: &mut [u8]) -> Result<Run, Refusal> {
        self.set().csv_rows(first, count, out)
    }
}

/// In how many files the addresses of a set may stand.
#[derive(Clone, Copy, PartialEq, Eq)]
enum Addresses {
    InOneFile,
    /// Those behind the first may have no header.
    InSeveral,
}

/// The paths of the files of a set in its order, of which the last are those of
/// the addresses, one or more.
pub fn paths_of_a_set(given: &[PathBuf]) -> Result<[Vec<PathBuf>; FILES], Stop> {
    let found = told_apart(given, Addresses::InSeveral)?;
    Ok(found.map(|files| files.into_iter().map(|begun| begun.path).collect()))
}

/// A file of which the first bytes were read.
struct Begun {
    path: PathBuf,
    name: String,
    file: File,
    front: Vec<u8>,
}

impl Begun {
    fn open(path: &Path) -> Result<Begun, Stop> {
        let name = name_of(path);
        let mut front = Vec::new();
        let begun = File::open(path).and_then(|mut file| {
            (&mut file).take(FRONT).read_to_end(&mut front)?;
            Ok(file)
        });
        match begun {
            Ok(file) => Ok(Begun {
                path: path.to_path_buf(),
                name,
                file,
                front,
            }),
            Err(why) => Err(Stop::could_not(format!("cannot read {name}: {why}"))),
        }
    }

    /// The place of its kind in a set, by what its header says. Whether the
    /// header is right in all else is the library's to say.
    fn kind(&self) -> Option<usize> {
        MAIN.iter().position(|kind| kind.begins(&self.front))
    }

    /// Whether it begins with an address, as a file does that goes on where
    /// another one ended.
    fn goes_on(&self) -> bool {
        let kind = &MAIN[ADDRESSES];
        let [header, trailer] = kind.ends();
        let file = [header, self.front.clone(), kind.counted(&trailer, 3)];
        kind.check(&file.concat()).is_ok()
    }

    /// All its bytes, or as many as are needed to refuse it.
    fn rest(self, most: usize) -> Result<Vec<u8>, Stop> {
        read_whole(self.front, self.file, most, &self.name)
    }
}

/// The files in the set's order, each begun: one of each kind, or more of
/// addresses.
fn told_apart(given: &[PathBuf], addresses: Addresses) -> Result<[Vec<Begun>; FILES], Stop> {
    let (paths, is_folder) = match given {
        [one] if one.is_dir() => (files_in(one)?, true),
        files => (files.to_vec(), false),
    };
    let mut found: [Vec<Begun>; FILES] = Default::default();
    let mut strange = Vec::new();
    for path in &paths {
        let begun = Begun::open(path)?;
        match begun.kind() {
            Some(kind) => found[kind].push(begun),
            None if addresses == Addresses::InSeveral && begun.goes_on() => {
                found[ADDRESSES].push(begun);
            }
            None => strange.push(begun.name),
        }
    }
    let single = match addresses {
        Addresses::InOneFile => FILES,
        Addresses::InSeveral => ADDRESSES,
    };
    let faults = faults(&found, single, &strange, is_folder);
    match faults.is_empty() {
        true => Ok(found),
        false => Err(Stop::could_not(faults.join("; "))),
    }
}

/// What is wrong with the files that were given: of some kind none, of one of the
/// first so many kinds more than one, or of none of the kinds. What else stands in
/// a folder is passed over where it lacks nothing.
fn faults(found: &[Vec<Begun>], single: usize, strange: &[String], is_folder: bool) -> Vec<String> {
    let mut faults = Vec::new();
    let named = || MAIN_NAMES.iter().zip(found);
    let missing = named().filter(|(_, files)| files.is_empty());
    let missing: Vec<&str> = missing.map(|(name, _)| *name).collect();
    match missing.as_slice() {
        [] => {}
        [one] => faults.push(format!("the {one} file is missing")),
        some => faults.push(format!("these files are missing: {}", some.join(", "))),
    }
    let twice = named().take(single).filter(|(_, files)| files.len() > 1);
    for (name, files) in twice {
        let files: Vec<&str> = files.iter().map(|begun| begun.name.as_str()).collect();
        let twice = format!("the {name} file is given more than once: ");
        faults.push(twice + &files.join(", "));
    }
    match strange {
        _ if is_folder && faults.is_empty() => {}
        many if is_folder && many.len() > missing.len() => {
            let count = many.len();
            faults.push(format!("{count} files there begin as none of the seven"));
        }
        some => faults.extend(
            some.iter()
                .map(|name| format!("{name} begins as none of the seven files")),
        ),
    }
    faults
}

/// The plain files of a folder in the order of their names, but for hidden ones.
fn files_in(folder: &Path) -> Result<Vec<PathBuf>, Stop> {
    let paths = || -> io::Result<Vec<PathBuf>> {
        let mut paths = Vec::new();
        for entry in fs::read_dir(folder)? {
            let entry = entry?;
            let hidden = entry.file_name().as_encoded_bytes().starts_with(b".");
            if !hidden && entry.path().is_file() {
                paths.push(entry.path());
            }
        }
        paths.sort();
        Ok(paths)
    };
    paths().map_err(|why| Stop::could_not(format!("cannot read {}: {why}", name_of(folder))))
}
