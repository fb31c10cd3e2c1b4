//! `ttw main`: the commands on a Mainfile set.

use crate::arguments::Arguments;
use crate::commands::{cut_packs, print_codes, print_labels};
use crate::csv::write_rows;
use crate::extract::{main_extract, OPTIONS};
use crate::output::print;
use crate::seven::Seven;
use crate::stop::Outcome;
use crate::verbs::{self, Verb};

/// The names of the commands on a set.
pub const VERBS: [&str; 6] = ["check", "codes", "labels", "pack", "csv", "extract"];

const COMMANDS: [Verb; VERBS.len()] = [
    Verb {
        name: VERBS[0],
        takes: TAKES,
        options: &[],
        run: |_, files| print(Seven::read_accepted(files)?.counts()?),
    },
    Verb {
        name: VERBS[1],
        takes: TAKES,
        options: &[],
        run: |_, files| print_codes(&Seven::read_accepted(files)?),
    },
    Verb {
        name: VERBS[2],
        takes: TAKES,
        options: &["--view", "--code", "--nth", "--count", "--out"],
        run: |given, files| print_labels(given, files, Seven::read_accepted),
    },
    Verb {
        name: VERBS[3],
        takes: TAKES,
        options: &["--code", "--all", "--out"],
        run: |given, files| cut_packs(given, files, Seven::read_accepted),
    },
    Verb {
        name: VERBS[4],
        takes: TAKES,
        options: &["--out"],
        run: |given, files| write_rows(given, files, Seven::read_accepted),
    },
    Verb {
        name: VERBS[5],
        takes: TAKES,
        options: &OPTIONS,
        run: main_extract,
    },
];

/// What every command on a set takes.
const TAKES: (&str, fn(usize) -> bool) = ("seven files or a folder", |count| count > 0);

/// `ttw main`.
pub fn run(given: &Arguments) -> Outcome {
    verbs::run("main", &COMMANDS, given)
}
