//! Reading and writing whole files.

use crate::kind::Kind;
use crate::part;
use crate::stop::Stop;
use crate::system::standard_input;
use std::fs::{self, File};
use std::io::{self, Read, Write};
use std::os::unix::ffi::OsStrExt;
use std::path::Path;
use ttw::ask::BOOK;
use ttw::words::shown;

/// The name that stands for standard input where a pack or a CSV file is read,
/// and for standard output where labels or rows are written.
pub const STANDARD: &str = "-";

/// No pack of a pair of files comes near this length. Each address takes at most
/// 538 bytes of a pack with the rows that it alone uses, so that no pack of a
/// Mainfile set with less than 124,000 addresses in the code is as long.
const PACK_READ: u64 = 64 << 20;

/// A Changes file, or as much of it as is needed to refuse it: one byte more than
/// the longest that the library accepts. So a disk image given by mistake does not
/// fill the memory.
pub fn read_changes(path: &Path, kind: &Kind) -> Result<Vec<u8>, Stop> {
    let most = kind.most * kind.record + 1;
    read_at_most(File::open(path), most as u64, &name_of(path))
}

/// A pack file, or what comes on standard input.
pub fn read_pack(path: &Path) -> Result<Vec<u8>, Stop> {
    let (file, name) = open_or_standard_input(path);
    let pack = read_at_most(file, PACK_READ + 1, &name)?;
    if pack.len() as u64 > PACK_READ {
        return Err(Stop::could_not(format!("{name} is too long for a pack")));
    }
    Ok(pack)
}

/// A book that was opened, or as much of it as is needed to refuse it.
pub fn read_book(file: &File, name: &str) -> Result<Vec<u8>, Stop> {
    read_at_most(file.try_clone(), BOOK as u64 + 1, name)
}

/// A file, or standard input, and what it is called in a message.
pub fn open_or_standard_input(path: &Path) -> (io::Result<File>, String) {
    match path == Path::new(STANDARD) {
        true => (standard_input(), "standard input".to_string()),
        false => (File::open(path), name_of(path)),
    }
}

pub fn cannot_read(name: &str, why: &io::Error) -> Stop {
    Stop::could_not(format!("cannot read {name}: {why}"))
}

fn read_at_most(file: io::Result<File>, most: u64, name: &str) -> Result<Vec<u8>, Stop> {
    let mut bytes = Vec::new();
    file.and_then(|file| file.take(most).read_to_end(&mut bytes))
        .map_err(|why| cannot_read(name, &why))?;
    Ok(bytes)
}

/// A file whose first bytes were read already, or as much of it as is needed to
/// refuse it. Its length is asked for first, so that no byte is moved once it
/// was read.
pub fn read_whole(front: Vec<u8>, file: File, most: usize, name: &str) -> Result<Vec<u8>, Stop> {
    let mut bytes = front;
    let length = file
        .metadata()
        .map_or(0, |there| there.len())
        .min(most as u64);
    bytes.reserve_exact((length as usize).saturating_sub(bytes.len()));
    let left = most.saturating_sub(bytes.len()) as u64;
    file.take(left)
        .read_to_end(&mut bytes)
        .map_err(|why| cannot_read(name, &why))?;
    Ok(bytes)
}

/// Makes the folder where it is missing.
pub fn make_folder(folder: &Path) -> Result<(), Stop> {
    part::make_folder(folder)
        .map_err(|why| Stop::could_not(format!("cannot make {}: {why}", name_of(folder))))
}

/// Writes these bytes as a file, whole or not at all.
pub fn write_whole(path: &Path, bytes: &[u8]) -> Result<(), Stop> {
    told_of(
        path,
        part::write_whole(path, |file| Ok(file.write_all(bytes)?)),
    )
}

/// Has a file written by `fill`, whole or not at all. It may replace a plain file
/// and nothing else: a device, a pipe, a link or a folder of that name was hardly
/// meant.
pub fn write_plain<T>(
    path: &Path,
    fill: impl FnOnce(&mut File) -> Result<T, Stop>,
) -> Result<T, Stop> {
    let is_plain = match fs::symlink_metadata(path) {
        Ok(there) => there.is_file(),
        Err(_) => !path.as_os_str().as_bytes().ends_with(b"/"),
    };
    if !is_plain {
        let words = format!("cannot write {}: it is not a plain file", name_of(path));
        return Err(Stop::could_not(words));
    }
    told_of(path, part::write_whole(path, fill))
}

/// An outcome of writing, in which an error of the system names the file.
pub fn told_of<T>(path: &Path, written: Result<T, Stop>) -> Result<T, Stop> {
    written.map_err(|stop| match stop {
        Stop::Lost(why) => Stop::could_not(format!("cannot write {}: {why}", name_of(path))),
        stop => stop,
    })
}

/// A path as it may stand in a message.
pub fn name_of(path: &Path) -> String {
    shown(path.as_os_str().as_bytes())
}
