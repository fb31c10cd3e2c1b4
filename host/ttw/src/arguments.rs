//! What is given on the command line.

use crate::stop::Stop;
use std::ffi::{OsStr, OsString};
use std::os::unix::ffi::OsStrExt;
use std::path::PathBuf;
use ttw::words::shown;

/// An outward code as it was given.
#[derive(Clone, Debug, PartialEq, Eq)]
pub struct Code {
    /// Padded with spaces to 4 bytes, as the library takes it. A longer code is
    /// left as it is: to refuse it is the library's part.
    pub padded: Vec<u8>,
}

impl Code {
    pub fn new(given: &[u8]) -> Code {
        let mut padded = given.to_vec();
        if padded.len() < 4 {
            padded.resize(4, b' ');
        }
        Code { padded }
    }

    /// The code without its padding, fit for a screen and a file name.
    pub fn name(&self) -> String {
        shown(self.padded.trim_ascii_end())
    }
}

/// What an option takes.
#[derive(Clone, Copy, PartialEq, Eq)]
pub enum Takes {
    /// Nothing, and every command has it.
    NothingAnywhere,
    Nothing,
    Number,
    /// A code, or the letters that codes begin with; some of them where a list is
    /// taken.
    Code,
    /// A file or a folder.
    Place,
}

impl Takes {
    /// Whether it is a value that no file's name is.
    pub fn is_plain(self) -> bool {
        matches!(self, Takes::Number | Takes::Code)
    }
}

/// Every option.
pub const OPTIONS: [(&str, Takes); 16] = [
    ("--help", Takes::NothingAnywhere),
    ("--version", Takes::NothingAnywhere),
    ("--all", Takes::Nothing),
    ("--suffix", Takes::Nothing),
    ("--sectors", Takes::Nothing),
    ("--line-ends", Takes::Nothing),
    ("--stop", Takes::Nothing),
    ("--view", Takes::Number),
    ("--place", Takes::Number),
    ("--nth", Takes::Number),
    ("--count", Takes::Number),
    ("--most", Takes::Number),
    ("--code", Takes::Code),
    ("--area", Takes::Code),
    ("--csv", Takes::Place),
    ("--out", Takes::Place),
];

/// Files and options, each option at most once.
#[derive(Default)]
pub struct Arguments {
    pub files: Vec<PathBuf>,
    pub view: Option<u64>,
    pub place: Option<u64>,
    pub code: Option<Code>,
    pub area: Option<Code>,
    pub nth: Option<u64>,
    pub count: Option<u64>,
    pub most: Option<u64>,
    pub all: bool,
    pub suffix: bool,
    pub sectors: bool,
    pub line_ends: bool,
    pub stop: bool,
    pub csv: Option<PathBuf>,
    pub out: Option<PathBuf>,
    pub help: bool,
    pub version: bool,
}

impl Arguments {
    /// The options that were given, but those that every command has.
    pub fn options(&self) -> impl Iterator<Item = &'static str> {
        let given = [
            ("--all", self.all),
            ("--suffix", self.suffix),
            ("--sectors", self.sectors),
            ("--line-ends", self.line_ends),
            ("--stop", self.stop),
            ("--view", self.view.is_some()),
            ("--place", self.place.is_some()),
            ("--nth", self.nth.is_some()),
            ("--count", self.count.is_some()),
            ("--most", self.most.is_some()),
            ("--code", self.code.is_some()),
            ("--area", self.area.is_some()),
            ("--csv", self.csv.is_some()),
            ("--out", self.out.is_some()),
        ];
        given
            .into_iter()
            .filter(|given| given.1)
            .map(|given| given.0)
    }
}

/// Reads the arguments behind a command's name; `options` are the ones that it
/// takes.
pub fn read(given: &[OsString], options: &[&str]) -> Result<Arguments, Stop> {
    let mut arguments = Arguments::default();
    let mut rest = given.iter();
    while let Some(word) = rest.next() {
        if word == "--" {
            arguments.files.extend(rest.by_ref().map(PathBuf::from));
        } else if word.as_bytes().starts_with(b"-") && word != "-" {
            let (name, value) = split(word);
            read_option(&mut arguments, &name, value, &mut rest, options)?;
        } else {
            arguments.files.push(PathBuf::from(word));
        }
    }
    Ok(arguments)
}

/// `--name=value` in its two parts.
fn split(word: &OsStr) -> (String, Option<OsString>) {
    let bytes = word.as_bytes();
    let (name, value) = match bytes.iter().position(|byte| *byte == b'=') {
        Some(at) => (&bytes[..at], Some(OsStr::from_bytes(&bytes[at + 1..]))),
        None => (bytes, None),
    };
    let name = String::from_utf8_lossy(name).into_owned();
    (name, value.map(OsStr::to_os_string))
}

fn read_option<'a>(
    arguments: &mut Arguments,
    name: &str,
    value: Option<OsString>,
    rest: &mut impl Iterator<Item = &'a OsString>,
    options: &[&str],
) -> Result<(), Stop> {
    let is_here = |takes: Takes| takes == Takes::NothingAnywhere || options.contains(&name);
    let known = OPTIONS.iter().find(|option| option.0 == name);
    let Some((_, takes)) = known.filter(|option| is_here(option.1)) else {
        let name = shown(name.as_bytes());
        return Err(Stop::could_not(format!("there is no option {name} here")));
    };
    if matches!(takes, Takes::NothingAnywhere | Takes::Nothing) {
        if value.is_some() {
            return Err(Stop::could_not(format!("{name} takes no value")));
        }
        return set_mark(arguments, name);
    }
    let value = value
        .or_else(|| rest.next().cloned())
        .ok_or_else(|| Stop::could_not(format!("{name} needs a value")))?;
    set_value(arguments, name, &value)
}

fn set_mark(arguments: &mut Arguments, name: &str) -> Result<(), Stop> {
    let mark = match name {
        "--help" => &mut arguments.help,
        "--version" => &mut arguments.version,
        "--suffix" => &mut arguments.suffix,
        "--sectors" => &mut arguments.sectors,
        "--line-ends" => &mut arguments.line_ends,
        "--stop" => &mut arguments.stop,
        _ => &mut arguments.all,
    };
    *mark = true;
    Ok(())
}

fn set_value(arguments: &mut Arguments, name: &str, value: &OsStr) -> Result<(), Stop> {
    match name {
        "--view" => once(&mut arguments.view, name, number(name, value)?),
        "--place" => once(&mut arguments.place, name, number(name, value)?),
        "--nth" => once(&mut arguments.nth, name, number(name, value)?),
        "--count" => once(&mut arguments.count, name, number(name, value)?),
        "--most" => once(&mut arguments.most, name, number(name, value)?),
        "--code" => once(&mut arguments.code, name, Code::new(value.as_bytes())),
        "--area" => once(&mut arguments.area, name, Code::new(value.as_bytes())),
        "--csv" => once(&mut arguments.csv, name, place(name, value)?),
        _ => once(&mut arguments.out, name, place(name, value)?),
    }
}

/// A file or a folder. An empty name would be the folder in which the command
/// runs, and mostly comes from a variable that was not set.
fn place(name: &str, value: &OsStr) -> Result<PathBuf, Stop> {
    if value.is_empty() {
        return Err(Stop::could_not(format!(
            "{name} takes a name, not an empty one"
        )));
    }
    Ok(PathBuf::from(value))
}

/// Sets what was not set before.
fn once<T>(place: &mut Option<T>, name: &str, value: T) -> Result<(), Stop> {
    if place.replace(value).is_some() {
        return Err(Stop::could_not(format!("{name} is given twice")));
    }
    Ok(())
}

fn number(name: &str, value: &OsStr) -> Result<u64, Stop> {
    let text = value.to_string_lossy();
    let digits = text.bytes().all(|byte| byte.is_ascii_digit());
    text.parse()
        .ok()
        .filter(|_| digits)
        .ok_or_else(|| Stop::could_not(format!("{name} takes a whole number, not {text:?}")))
}
