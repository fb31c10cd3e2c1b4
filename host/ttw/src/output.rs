//! Where output goes: to standard output, or into a file that is written whole or
//! not at all. What cannot be printed is told, wherever it is found out: at the
//! start, while printing, or when the last byte is to be taken.

use crate::files::{write_plain, STANDARD};
use crate::stop::{Ended, Outcome, Stop};
use crate::system::{close_told, standard_output};
use std::fs::File;
use std::io::{BufWriter, IntoInnerError, Write};
use std::path::{Path, PathBuf};
use std::sync::OnceLock;

pub type Output = BufWriter<File>;

/// The file that output goes into, if it is not standard output.
static INTO: OnceLock<PathBuf> = OnceLock::new();

/// Has what is printed from now on go into a file, where one is named.
pub fn send_to(file: Option<&Path>) {
    if let Some(file) = file.filter(|file| *file != Path::new(STANDARD)) {
        INTO.get_or_init(|| file.to_path_buf());
    }
}

/// Has something printed, and sees to it that all of it was taken. A failure of
/// printing goes before whatever else there is to tell. Into a file nothing is
/// printed unless `print` comes to its end.
pub fn printed<T>(print: impl FnOnce(&mut Output) -> Result<T, Stop>) -> Result<T, Stop> {
    if let Some(path) = INTO.get() {
        return write_plain(path, |file| {
            let mut out = BufWriter::new(file.try_clone()?);
            let answer = print(&mut out)?;
            out.into_inner().map_err(IntoInnerError::into_error)?;
            Ok(answer)
        });
    }
    let mut out = BufWriter::new(standard_output()?);
    let answer = print(&mut out);
    let file = out.into_inner().map_err(IntoInnerError::into_error)?;
    close_told(file)?;
    answer
}

/// Prints this and nothing else.
pub fn print(text: impl AsRef<[u8]>) -> Outcome {
    printed(|out| {
        out.write_all(text.as_ref())?;
        Ok(Ended::Done)
    })
}
