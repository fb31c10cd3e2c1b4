//! `ttw book`: a running address book, kept in a file. What an event does, what a
//! book is and what it says comes from the library's calls.

mod kept;
mod locked;
mod month;

use crate::arguments::{Arguments, Code};
use crate::commands::{cut_packs, print_one, print_run, Listing};
use crate::files::name_of;
use crate::output::send_to;
use crate::pair::Pair;
use crate::stop::{tell, Ended, Outcome, Stop};
use crate::verbs::{self, Verb};
use kept::Kept;
use locked::Locked;
use month::Month;
use std::path::{Path, PathBuf};
use ttw::ask::{self, Refusal, BOOK};
use ttw::listing::PAGE;
use ttw::words::book_words;

/// What is done with a book.
pub const VERBS: [&str; 6] = ["new", "add", "list", "labels", "pack", "tidy"];

/// A book alone, and a book with a table file.
const ALONE: (&str, fn(usize) -> bool) = ("a book", |count| count == 1);
const WITH_TABLE: (&str, fn(usize) -> bool) = ("a book and a table file", |count| count == 2);

const COMMANDS: [Verb; VERBS.len()] = [
    Verb {
        name: VERBS[0],
        takes: ALONE,
        options: &[],
        run: |_, files| new(&files[0]),
    },
    Verb {
        name: VERBS[1],
        takes: ("a book and two Changes files", |count| count == 3),
        options: &["--stop"],
        run: add,
    },
    Verb {
        name: VERBS[2],
        takes: WITH_TABLE,
        options: &["--code", "--out"],
        run: list,
    },
    Verb {
        name: VERBS[3],
        takes: WITH_TABLE,
        options: &["--place", "--code", "--nth", "--count", "--out"],
        run: labels,
    },
    Verb {
        name: VERBS[4],
        takes: WITH_TABLE,
        options: &["--code", "--all", "--out"],
        run: |given, files| cut_packs(given, files, Kept::read_accepted),
    },
    Verb {
        name: VERBS[5],
        takes: ALONE,
        options: &[],
        run: |_, files| tidy(&files[0]),
    },
];

/// `ttw book`.
pub fn run(given: &Arguments) -> Outcome {
    verbs::run("book", &COMMANDS, given)
}

/// A refusal as the end of a run.
fn refused(subject: &str) -> impl Fn(Refusal) -> Stop + '_ {
    move |why| Stop::Refused(book_words(&why, subject))
}

/// `ttw book new`: the empty book, where nothing of that name stands.
fn new(path: &Path) -> Outcome {
    Locked::create(path)?.replace(&[0; BOOK])?;
    tell(&format!("{}: an empty book", name_of(path)));
    Ok(Ended::Done)
}

/// `ttw book add`: every event of a month in turn. A refused one is told, and the
/// others go on; where it stops the run, the book stays as it was.
fn add(given: &Arguments, files: &[PathBuf]) -> Outcome {
    let pair = Pair::read_accepted(&files[1..])?;
    let locked = Locked::open(&files[0])?;
    let mut book = locked.read_accepted()?;
    let (mut done, mut told) = (0, 0);
    for event in Month::of(&pair.points).events() {
        match event.apply(&mut book) {
            Ok(()) => done += 1,
            Err(why) => {
                told += 1;
                tell(&book_words(&why, &event.name()));
            }
        }
        if given.stop && told > 0 {
            tell(&format!("{}: as it was", name_of(&files[0])));
            return Ok(Ended::Refused);
        }
    }
    if done > 0 {
        locked.replace(&book)?;
    }
    let present = ask::book(&book).map_err(refused("book"))?;
    tell(&format!(
        "events done: {done}, refused: {told}, present: {present}"
    ));
    Ok(Ended::after(told))
}

/// `ttw book tidy`.
fn tidy(path: &Path) -> Outcome {
    let locked = Locked::open(path)?;
    let mut book = locked.read_accepted()?;
    let present = ask::book_tidy(&mut book).map_err(refused("book"))?;
    locked.replace(&book)?;
    tell(&format!("present: {present}, in the first slots"));
    Ok(Ended::Done)
}

/// `ttw book list`: all that are present, or those of a code, each under its place.
fn list(given: &Arguments, files: &[PathBuf]) -> Outcome {
    send_to(given.out.as_deref());
    let Kept { book, table } = Kept::read_accepted(files)?;
    let code = given.code.as_ref();
    let subject = code.map_or("book".to_string(), |code| format!("code {}", code.name()));
    let listing = Listing {
        words: book_words,
        page: PAGE,
        whole: &subject,
    };
    listing.print(
        |first, count, page| match code {
            Some(code) => ask::book_code_list(&book, &table, &code.padded, first, count, page),
            None => ask::book_list(&book, &table, first, count, page),
        },
        |_, heading| (heading.to_string(), heading.to_string()),
    )
}

/// `ttw book labels`: one label, or so many from one on, one behind the other; all
/// where none is named.
fn labels(given: &Arguments, files: &[PathBuf]) -> Outcome {
    if given.place.is_some() && (given.code.is_some() || given.nth.is_some()) {
        let words = "--place stands alone, without --code and --nth";
        return Err(Stop::could_not(words.to_string()));
    }
    if given.nth.is_some() && given.code.is_none() {
        return Err(Stop::could_not("--nth needs --code".to_string()));
    }
    if given.count.is_some() && given.place.is_none() && given.nth.is_none() {
        let words = "--count needs --place or --nth, to count from";
        return Err(Stop::could_not(words.to_string()));
    }
    send_to(given.out.as_deref());
    let kept = Kept::read_accepted(files)?;
    match &given.code {
        Some(code) => labels_of_code(&kept, code, given),
        None => labels_of_places(&kept, given),
    }
}

fn labels_of_places(Kept { book, table }: &Kept, given: &Arguments) -> Outcome {
    let name = |place| format!("place {place}");
    if let (Some(place), None) = (given.place, given.count) {
        let label = ask::book_label(book, table, place);
        return print_one(book_words, &name(place), label);
    }
    let all = ask::book(book).map_err(refused("book"))?;
    let (first, count) = (given.place.unwrap_or(1), given.count.unwrap_or(all));
    print_run(book_words, first, count, name, |first, count, out| {
        ask::book_labels(book, table, first, count, out)
    })
}

fn labels_of_code(Kept { book, table }: &Kept, code: &Code, given: &Arguments) -> Outcome {
    let (code, shown) = (&code.padded, code.name());
    let name = |k| format!("{shown} number {k}");
    if let (Some(k), None) = (given.nth, given.count) {
        let label = ask::book_code_label(book, table, code, k);
        return print_one(book_words, &name(k), label);
    }
    let all = ask::book_live(book, code).map_err(refused(&format!("code {shown}")))?;
    let (first, count) = (given.nth.unwrap_or(1), given.count.unwrap_or(all));
    print_run(book_words, first, count, name, |first, count, out| {
        ask::book_code_labels(book, table, code, first, count, out)
    })
}
