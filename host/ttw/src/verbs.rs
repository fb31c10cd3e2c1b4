//! Commands whose first word says what is done, as `ttw main codes`.

use crate::arguments::Arguments;
use crate::stop::{Outcome, Stop};
use std::path::PathBuf;
use ttw::words::shown;

/// What such a command does: its name, the files that it takes, in words and
/// whether so many are right, the options that it takes, and its work.
pub struct Verb {
    pub name: &'static str,
    pub takes: (&'static str, fn(usize) -> bool),
    pub options: &'static [&'static str],
    pub run: fn(&Arguments, &[PathBuf]) -> Outcome,
}

/// The first word is what is done, those behind it are the files.
pub fn run(command: &str, verbs: &[Verb], given: &Arguments) -> Outcome {
    let misused = |words: &str| Stop::could_not(format!("{words}; see: ttw help {command}"));
    let Some((verb, files)) = given.files.split_first() else {
        let names: Vec<&str> = verbs.iter().map(|verb| verb.name).collect();
        let words = format!("{command} needs one of: {}", names.join(", "));
        return Err(misused(&words));
    };
    let Some(verb) = verbs.iter().find(|known| verb.as_os_str() == known.name) else {
        let name = shown(verb.as_os_str().as_encoded_bytes());
        return Err(misused(&format!("there is no command {command} {name}")));
    };
    let strange = given
        .options()
        .find(|option| !verb.options.contains(option));
    if let Some(option) = strange {
        return Err(Stop::could_not(format!("there is no option {option} here")));
    }
    let (name, (takes, is_right)) = (verb.name, verb.takes);
    if !is_right(files.len()) {
        let count = match files.len() {
            0 => "none".to_string(),
            count => count.to_string(),
        };
        let words = format!("{command} {name} takes {takes}, given: {count}");
        return Err(misused(&words));
    }
    (verb.run)(given, files)
}
