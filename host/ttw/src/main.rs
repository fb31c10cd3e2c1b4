//! The command `ttw`. It reads and writes files and puts answers into words;
//! every answer comes from the proved library.

mod arguments;
mod book;
mod commands;
mod completion;
mod csv;
mod extract;
mod files;
mod help;
mod kind;
mod main_commands;
mod man;
mod memory;
mod order;
mod output;
mod pair;
mod part;
mod progress;
mod seven;
mod source;
mod stop;
mod system;
mod unspace;
mod verbs;

use arguments::Arguments;
use output::print;
use std::ffi::OsString;
use std::process::ExitCode;
use stop::{Outcome, Stop};

/// A command: what its first word may be, how many files it takes (none where it
/// sees to them itself), the options that it takes, its help and its work.
struct Command {
    name: &'static str,
    verbs: &'static [&'static str],
    files: Option<usize>,
    options: &'static [&'static str],
    help: &'static str,
    run: fn(&Arguments) -> Outcome,
}

const COMMANDS: [Command; 10] = [
    Command {
        name: "check",
        verbs: &[],
        files: Some(2),
        options: &[],
        help: help::CHECK,
        run: commands::check,
    },
    Command {
        name: "codes",
        verbs: &[],
        files: Some(2),
        options: &[],
        help: help::CODES,
        run: commands::codes,
    },
    Command {
        name: "labels",
        verbs: &[],
        files: Some(2),
        options: &["--view", "--code", "--nth", "--count", "--csv", "--out"],
        help: help::LABELS,
        run: commands::labels,
    },
    Command {
        name: "pack",
        verbs: &[],
        files: Some(2),
        options: &["--code", "--all", "--out"],
        help: help::PACK,
        run: commands::pack,
    },
    Command {
        name: "show",
        verbs: &[],
        files: Some(1),
        options: &["--nth", "--count", "--suffix", "--sectors", "--out"],
        help: help::SHOW,
        run: commands::show,
    },
    Command {
        name: "csv",
        verbs: &[],
        files: Some(2),
        options: &["--out"],
        help: help::CSV,
        run: csv::csv,
    },
    Command {
        name: "extract",
        verbs: &[],
        files: Some(2),
        options: &extract::OPTIONS,
        help: help::EXTRACT,
        run: extract::extract,
    },
    Command {
        name: "unspace",
        verbs: &[],
        files: None,
        options: &[],
        help: help::UNSPACE,
        run: unspace::unspace,
    },
    Command {
        name: "book",
        verbs: &book::VERBS,
        files: None,
        options: &[
            "--stop", "--place", "--code", "--nth", "--count", "--all", "--out",
        ],
        help: help::BOOK,
        run: book::run,
    },
    Command {
        name: "main",
        verbs: &main_commands::VERBS,
        files: None,
        options: &[
            "--view",
            "--code",
            "--nth",
            "--count",
            "--all",
            "--area",
            "--most",
            "--line-ends",
            "--out",
        ],
        help: help::MAIN,
        run: main_commands::run,
    },
];

fn main() -> ExitCode {
    system::begin();
    let given: Vec<OsString> = std::env::args_os().skip(1).collect();
    match order::work_on_a_stack(move || stop::status(run(&given))) {
        Ok(status) => status.unwrap_or(ExitCode::from(2)),
        Err(why) => stop::status(Err(Stop::could_not(format!(
            "there is no stack to work on: {why}"
        )))),
    }
}

fn run(given: &[OsString]) -> Outcome {
    let Some((first, rest)) = given.split_first() else {
        return Err(misused("no command is given", "help"));
    };
    let name = first.to_string_lossy();
    match name.as_ref() {
        "--help" | "-h" => print(help::OVERVIEW),
        "--version" | "-V" => print_version(),
        "help" => print_help(rest),
        _ => match COMMANDS.iter().find(|command| command.name == name) {
            Some(command) => run_command(command, rest),
            None => Err(misused(&format!("there is no command {name:?}"), "help")),
        },
    }
}

fn run_command(command: &Command, rest: &[OsString]) -> Outcome {
    let given = arguments::read(rest, command.options)?;
    if given.help {
        return print(command.help);
    }
    if given.version {
        return print_version();
    }
    let got = given.files.len();
    let (wanted, with) = match given.csv {
        Some(_) => (Some(0), " with --csv"),
        None => (command.files, ""),
    };
    if let Some(wanted) = wanted.filter(|wanted| *wanted != got) {
        let words = format!("{}{with} takes files: {wanted}, given: {got}", command.name);
        return Err(misused(&words, &format!("help {}", command.name)));
    }
    (command.run)(&given)
}

/// `ttw help`, and `ttw help TOPIC`; for `make install` the same text as a man
/// page, and the table of commands as a script for bash.
fn print_help(rest: &[OsString]) -> Outcome {
    let Some(topic) = rest.first() else {
        return print(help::OVERVIEW);
    };
    let topic = topic.to_string_lossy();
    match topic.as_ref() {
        "--man" => return print(man::page()),
        "--bash" => return print(completion::script()),
        _ => {}
    }
    let commands = COMMANDS.iter().map(|command| (command.name, command.help));
    match commands
        .chain(help::TOPICS)
        .find(|(name, _)| *name == topic)
    {
        Some((_, text)) => print(text),
        None => Err(misused(&format!("there is no help on {topic:?}"), "help")),
    }
}

fn print_version() -> Outcome {
    print(concat!("ttw ", env!("CARGO_PKG_VERSION"), "\n"))
}

/// Wrong usage, and where the right one is told.
fn misused(words: &str, see: &str) -> Stop {
    Stop::could_not(format!("{words}; see: ttw {see}"))
}
