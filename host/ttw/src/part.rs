//! A file written whole or not at all. The bytes go to a part under a name that
//! nobody can guess, and reach the disk before the part gets the file's name, so
//! that a full disk, a kill or a power cut leaves the older file, if there was
//! one, as it was. Behind the rename the folder reaches the disk too, so that
//! what was told as written stays written. In the same way a new folder is
//! written with all its files.

use crate::system::{random, stands};
use std::ffi::{CStr, CString, OsStr, OsString};
use std::fs::{self, File, Metadata, OpenOptions, Permissions};
use std::io;
use std::os::unix::ffi::{OsStrExt, OsStringExt};
use std::os::unix::fs::{fchown, MetadataExt, OpenOptionsExt, PermissionsExt};
use std::path::{Path, PathBuf};

/// How often a name is tried that someone else took. One name in 2 to the 64 is
/// taken by chance, so that more than one is no chance.
const TRIES: usize = 8;

/// The mode of a file that replaces none, of which the system takes the bits
/// that the user's mask has; and the bits of a mode that are kept.
const NEW_MODE: u32 = 0o666;
const KEPT_MODE: u32 = 0o777;

/// Writes the file of that name, whose bytes come from `fill`; where that fails,
/// there is none. It has the mode of the file that it replaces and, where this
/// may be given, its owner.
pub fn write_whole<T, E: From<io::Error>>(
    path: &Path,
    fill: impl FnOnce(&mut File) -> Result<T, E>,
) -> Result<T, E> {
    // Opened first: where the folder cannot be brought to the disk, nothing is
    // written.
    let folder = File::open(above(path))?;
    let older = fs::symlink_metadata(path).ok().filter(Metadata::is_file);
    let mode = older.as_ref().map(|older| older.mode() & KEPT_MODE);
    let mut part = Part::create(path, mode.unwrap_or(NEW_MODE))?;
    let filled = fill(&mut part.file)?;
    if let Some(older) = older {
        keep_owner(&part.file, &older);
    }
    if let Some(mode) = mode {
        part.file.set_permissions(Permissions::from_mode(mode))?;
    }
    part.file.sync_all()?;
    part.rename(path)?;
    sync_folder(&folder)?;
    Ok(filled)
}

/// Gives a file to the owner and the group of an older one. Mostly only root may
/// give a file away; a group of one's own may be kept all the same.
fn keep_owner(file: &File, older: &Metadata) {
    if fchown(file, Some(older.uid()), Some(older.gid())).is_err() {
        let _ = fchown(file, None, Some(older.gid()));
    }
}

/// Makes the folder where it is missing, with those above it, and brings each to
/// the disk.
pub fn make_folder(folder: &Path) -> io::Result<()> {
    let mut made = fs::create_dir(folder);
    if is_not_found(&made) && !above(folder).is_dir() {
        make_folder(above(folder))?;
        made = fs::create_dir(folder);
    }
    match made {
        Err(_) if folder.is_dir() => Ok(()),
        made => made.and_then(|()| sync_folder(&File::open(above(folder))?)),
    }
}

fn is_not_found(made: &io::Result<()>) -> bool {
    made.as_ref()
        .is_err_and(|why| why.kind() == io::ErrorKind::NotFound)
}

/// The folder that a file or a folder stands in.
fn above(path: &Path) -> &Path {
    match path.parent() {
        Some(above) if above != Path::new("") => above,
        _ => Path::new("."),
    }
}

/// Brings a folder's names to the disk. A file system that has no way to do so
/// says that the question is invalid; there it is as safe as it can be.
fn sync_folder(folder: &File) -> io::Result<()> {
    match folder.sync_all() {
        Err(why) if why.kind() == io::ErrorKind::InvalidInput => Ok(()),
        synced => synced,
    }
}

/// A file that has not got its name yet. It goes where it does not get it, also
/// where the process gives up; there is one at a time.
struct Part {
    file: File,
    path: CString,
    named: bool,
}

impl Part {
    /// A new file beside the one that it is to be.
    fn create(whole: &Path, mode: u32) -> io::Result<Part> {
        let mut new = OpenOptions::new();
        new.write(true).create_new(true).mode(mode);
        let (file, path) = under_a_new_name(whole, |path| new.open(path))?;
        stands(0, Some(&path));
        Ok(Part {
            file,
            path,
            named: false,
        })
    }

    fn rename(&mut self, path: &Path) -> io::Result<()> {
        fs::rename(path_of(&self.path), path)?;
        self.named = true;
        Ok(())
    }
}

/// Has something made beside what it is to be, under a name that nobody can
/// guess: what stands there already is neither opened nor followed, and another
/// name is tried.
fn under_a_new_name<T>(
    whole: &Path,
    make: impl Fn(&Path) -> io::Result<T>,
) -> io::Result<(T, CString)> {
    let whole_name = whole.file_name().ok_or(io::ErrorKind::InvalidInput)?;
    let mut tries = 1;
    loop {
        let mut name = OsString::from(".");
        name.push(whole_name);
        name.push(format!(".{:016x}.part", random()?));
        let path = c_path(above(whole).join(name))?;
        match make(path_of(&path)) {
            Err(why) if why.kind() == io::ErrorKind::AlreadyExists && tries < TRIES => {
                tries += 1;
            }
            made => return made.map(|made| (made, path)),
        }
    }
}

impl Drop for Part {
    /// That the writing failed is told already.
    fn drop(&mut self) {
        if !self.named {
            let _ = fs::remove_file(path_of(&self.path));
        }
        stands(0, None);
    }
}

/// A new folder that has not got its name yet, with the files that were written
/// into it. It goes with all of them where it does not get its name.
pub struct NewFolder {
    path: CString,
    files: Vec<CString>,
    named: bool,
}

/// The place behind that of any file, in which the folder stands.
const FOLDER: usize = 7;

impl NewFolder {
    /// A new folder beside the one that it is to be.
    pub fn create(whole: &Path) -> io::Result<NewFolder> {
        let ((), path) = under_a_new_name(whole, |path| fs::create_dir(path))?;
        stands(FOLDER, Some(&path));
        Ok(NewFolder {
            path,
            files: Vec::with_capacity(FOLDER),
            named: false,
        })
    }

    pub fn path(&self) -> &Path {
        path_of(&self.path)
    }

    /// A new file in it, up to seven of them.
    pub fn file(&mut self, name: &str) -> io::Result<File> {
        let path = c_path(self.path().join(name))?;
        let file = File::create_new(path_of(&path))?;
        stands(self.files.len(), Some(&path));
        self.files.push(path);
        Ok(file)
    }

    /// Gives it its name, under which nothing stands yet.
    pub fn rename(mut self, path: &Path) -> io::Result<()> {
        sync_folder(&File::open(self.path())?)?;
        fs::rename(self.path(), path)?;
        self.named = true;
        sync_folder(&File::open(above(path))?)
    }
}

impl Drop for NewFolder {
    /// That the writing failed is told already.
    fn drop(&mut self) {
        if !self.named {
            for file in &self.files {
                let _ = fs::remove_file(path_of(file));
            }
            let _ = fs::remove_dir(self.path());
        }
        (0..=FOLDER).for_each(|place| stands(place, None));
    }
}

fn c_path(path: PathBuf) -> io::Result<CString> {
    Ok(CString::new(path.into_os_string().into_vec())?)
}

fn path_of(path: &CStr) -> &Path {
    Path::new(OsStr::from_bytes(path.to_bytes()))
}
