//! The commands on a pair of files and on a pack, and what the commands on any
//! files have in common. What they answer comes from the library's calls.

use crate::arguments::{Arguments, Code};
use crate::csv;
use crate::files::{make_folder, read_pack, write_whole};
use crate::order::in_order;
use crate::output::{print, printed, send_to, Output};
use crate::pair::Pair;
use crate::progress::Progress;
use crate::source::{Packable, Source, Words};
use crate::stop::{tell, Ended, Outcome, Stop};
use std::io::Write;
use std::path::{Path, PathBuf};
use std::slice;
use ttw::ask::{self, Refusal, Run};
use ttw::listing::{each_item, room, AT_A_TIME, PAGE};
use ttw::words::words;

/// `ttw check`: how many records and views, or what is refused.
pub fn check(given: &Arguments) -> Outcome {
    let pair = Pair::read_accepted(&given.files)?;
    let refused = |why| Stop::Refused(words(&why, "files"));
    let table = ask::table(&pair.table).map_err(refused)?;
    let points = ask::points(&pair.points).map_err(refused)?;
    let views = ask::views(&pair.points).map_err(refused)?;
    print(format!(
        "table: {table} records\npoints: {points} records, {views} views\n"
    ))
}

/// `ttw codes`.
pub fn codes(given: &Arguments) -> Outcome {
    print_codes(&Pair::read_accepted(&given.files)?)
}

/// `ttw labels`.
pub fn labels(given: &Arguments) -> Outcome {
    match &given.csv {
        Some(file) => csv::print_labels(given, file),
        None => print_labels(given, &given.files, Pair::read_accepted),
    }
}

/// `ttw pack`.
pub fn pack(given: &Arguments) -> Outcome {
    cut_packs(given, &given.files, Pair::read_accepted)
}

/// Each outward code with live views, and how many.
pub fn print_codes<S: Source>(source: &S) -> Outcome {
    let codes = live_codes(source)?;
    let line = |(code, live): &(Code, u64)| format!("{} {live}\n", code.name());
    print(codes.iter().map(line).collect::<String>())
}

/// The codes with live views, rising.
fn live_codes<S: Packable>(source: &S) -> Result<Vec<(Code, u64)>, Stop> {
    let refused = |why| Stop::Refused((S::WORDS)(&why, "files"));
    let codes = source.codes().map_err(refused)?;
    let named = |(code, live): ([u8; 4], u64)| (Code::new(&code), live);
    Ok(codes.into_iter().map(named).collect())
}

/// One label, a run of them, those of a code, or all; the files are read where
/// the options are right.
pub fn print_labels<S: Source>(
    given: &Arguments,
    files: &[PathBuf],
    read: impl FnOnce(&[PathBuf]) -> Result<S, Stop>,
) -> Outcome {
    let (view, code, nth) = (given.view, given.code.as_ref(), given.nth);
    if view.is_some() && (code.is_some() || nth.is_some()) {
        let words = "--view stands alone, without --code and --nth";
        return Err(Stop::could_not(words.to_string()));
    }
    if nth.is_some() && code.is_none() {
        return Err(Stop::could_not("--nth needs --code".to_string()));
    }
    if given.count.is_some() && view.is_none() && nth.is_none() {
        let words = "--count needs --view or --nth, to count from";
        return Err(Stop::could_not(words.to_string()));
    }
    send_to(given.out.as_deref());
    let source = read(files)?;
    match (view, code, nth) {
        (Some(view), _, _) => labels_from_view(&source, view, given.count),
        (None, Some(code), Some(k)) => labels_from_nth(&source, code, k, given.count),
        (None, Some(code), None) => labels_of_code(&source, code),
        (None, None, _) => labels_of_all(&source),
    }
}

/// The label of a view, or of so many from it on.
fn labels_from_view<S: Source>(source: &S, view: u64, count: Option<u64>) -> Outcome {
    let name = |view| format!("view {view}");
    match count {
        None => print_one(S::WORDS, &name(view), source.label(view)),
        Some(count) => print_run(S::WORDS, view, count, name, |first, count, out| {
            source.labels(first, count, out)
        }),
    }
}

/// The same for the live views of a code.
fn labels_from_nth<S: Source>(source: &S, code: &Code, k: u64, count: Option<u64>) -> Outcome {
    let name = |k| format!("{} number {k}", code.name());
    match count {
        None => print_one(S::WORDS, &name(k), source.code_label(&code.padded, k)),
        Some(count) => print_run(S::WORDS, k, count, name, |first, count, out| {
            source.code_labels(&code.padded, first, count, out)
        }),
    }
}

/// A label alone, so that it can be sent on as it is.
pub fn print_one(words: Words, subject: &str, label: Result<Vec<u8>, Refusal>) -> Outcome {
    let label = label.map_err(|why| Stop::Refused(words(&why, subject)))?;
    print(label)
}

/// So many labels one behind the other, as the library writes them. A refused
/// label ends them.
pub fn print_run(
    words: Words,
    first: u64,
    count: u64,
    name: impl Fn(u64) -> String,
    ask: impl Fn(u64, u64, &mut [u8]) -> Result<Run, Refusal>,
) -> Outcome {
    let refused = |why, number| Stop::Refused(words(&why, &name(number)));
    let mut room = room(count);
    printed(|out| {
        let (mut next, mut left) = (first, count);
        while left > 0 {
            let run = ask(next, left.min(AT_A_TIME), &mut room);
            let run = run.map_err(|why| refused(why, next))?;
            out.write_all(&room[..run.bytes])?;
            next = next.saturating_add(run.labels);
            left -= run.labels;
            if let Some(why) = run.stop {
                return Err(refused(why, next));
            }
        }
        Ok(Ended::Done)
    })
}

fn labels_of_code<S: Source>(source: &S, code: &Code) -> Outcome {
    let name = code.name();
    let listing = Listing {
        words: S::WORDS,
        page: S::PAGE,
        whole: &format!("code {name}"),
    };
    listing.print(
        |first, count, page| source.code_list(&code.padded, first, count, page),
        |k, _| {
            let name = format!("{name} number {k}");
            (name.clone(), name)
        },
    )
}

fn labels_of_all<S: Source>(source: &S) -> Outcome {
    let listing = Listing {
        words: S::WORDS,
        page: S::PAGE,
        whole: "files",
    };
    listing.print(
        |first, count, page| source.list(first, count, page),
        |view, heading| (heading.to_string(), format!("view {view}")),
    )
}

/// All labels that a listing has, to be printed as a list.
pub struct Listing<'a> {
    pub words: Words,
    /// Bytes of a page.
    pub page: usize,
    /// What a refusal of the whole is said of.
    pub whole: &'a str,
}

impl Listing<'_> {
    /// Prints what `ask` lists. `names` are the heading of one label and what its
    /// refusal is said of, by its number and its heading there.
    pub fn print(
        &self,
        ask: impl Fn(u64, u64, &mut [u8]) -> Result<Run, Refusal>,
        names: impl Fn(u64, &str) -> (String, String),
    ) -> Outcome {
        list(|list| {
            let ask = |first, count, page: &mut [u8]| {
                ask(first, count, page).map_err(|why| Stop::Refused((self.words)(&why, self.whole)))
            };
            each_item(&mut vec![0; self.page], ask, |number, item| {
                let (heading, subject) = names(number, item.heading);
                let said = |why: Refusal| (self.words)(&why, &subject);
                list.put(&heading, item.label.map_err(said))
            })
        })
    }
}

/// Labels under their headings. A refused one says why in its place.
struct List<'a> {
    out: &'a mut Output,
    printed: u64,
    refused: u64,
}

impl List<'_> {
    fn put(&mut self, heading: &str, label: Result<&[u8], String>) -> Result<(), Stop> {
        writeln!(self.out, "{heading}")?;
        match label {
            Ok(label) => {
                self.printed += 1;
                self.out.write_all(label)?;
            }
            Err(why) => {
                self.refused += 1;
                writeln!(self.out, "refused: {why}")?;
            }
        }
        Ok(())
    }
}

/// Prints a list and tells how many labels it has.
fn list(fill: impl FnOnce(&mut List) -> Result<(), Stop>) -> Outcome {
    let (labels, refused) = printed(|out| {
        let mut list = List {
            out,
            printed: 0,
            refused: 0,
        };
        fill(&mut list)?;
        Ok((list.printed, list.refused))
    })?;
    tell(&format!("labels printed: {labels}, refused: {refused}"));
    Ok(Ended::after(refused))
}

/// The pack of one code, or of every code with live views; the files are read
/// where the options are right.
pub fn cut_packs<S: Packable>(
    given: &Arguments,
    files: &[PathBuf],
    read: impl FnOnce(&[PathBuf]) -> Result<S, Stop>,
) -> Outcome {
    let Some(folder) = &given.out else {
        return Err(Stop::could_not("pack needs --out FOLDER".to_string()));
    };
    match (&given.code, given.all) {
        (Some(code), false) => cut(&read(files)?, slice::from_ref(code), folder),
        (None, true) => {
            let source = read(files)?;
            let codes = live_codes(&source)?.into_iter();
            let codes: Vec<Code> = codes.map(|(code, _)| code).collect();
            cut(&source, &codes, folder)
        }
        _ => Err(Stop::could_not(
            "pack needs either --code or --all".to_string(),
        )),
    }
}

/// Cuts the packs of these codes into a folder and tells how many. Only a folder
/// that cannot be made ends the run before.
fn cut<S: Packable>(source: &S, codes: &[Code], folder: &Path) -> Outcome {
    let mut packs = Packs {
        words: S::WORDS,
        folder,
        progress: Progress::new(codes.len()),
        written: 0,
        refused: 0,
        failed: 0,
    };
    let ask = |code: &Code| source.build(&code.padded);
    let ended = in_order(codes, ask, |code, pack| packs.take(code, pack));
    packs.tell_counts();
    ended.map(|()| match packs.failed {
        0 => Ended::after(packs.refused),
        _ => Ended::CouldNot,
    })
}

/// Packs on their way into a folder. A code that is refused and a pack that
/// cannot be written are told, and the others go on.
struct Packs<'a> {
    words: Words,
    folder: &'a Path,
    progress: Progress,
    written: u64,
    refused: u64,
    failed: u64,
}

impl Packs<'_> {
    fn take(&mut self, code: &Code, pack: Result<Vec<u8>, Refusal>) -> Result<(), Stop> {
        let name = code.name();
        self.progress.step(&name);
        let pack = match pack {
            Ok(pack) => pack,
            Err(why) => {
                self.refused += 1;
                let words = (self.words)(&why, &format!("code {name}"));
                self.tell(&Stop::Refused(words));
                return Ok(());
            }
        };
        if self.written + self.failed == 0 {
            make_folder(self.folder)?;
        }
        match write_whole(&self.folder.join(format!("{name}.pack")), &pack) {
            Ok(()) => self.written += 1,
            Err(stop) => {
                self.failed += 1;
                self.tell(&stop);
            }
        }
        Ok(())
    }

    fn tell(&self, stop: &Stop) {
        self.progress.clear();
        stop.tell();
    }

    fn tell_counts(&self) {
        self.progress.clear();
        let (written, refused) = (self.written, self.refused);
        let failed = match self.failed {
            0 => String::new(),
            failed => format!(", packs not written: {failed}"),
        };
        tell(&format!(
            "packs written: {written}, codes refused: {refused}{failed}"
        ));
    }
}

/// `ttw show`: the labels of a pack, or the counts of its sectors.
pub fn show(given: &Arguments) -> Outcome {
    if given.sectors && (given.nth.is_some() || given.count.is_some() || given.suffix) {
        let words = "--sectors stands alone, without --nth, --count and --suffix";
        return Err(Stop::could_not(words.to_string()));
    }
    if given.count.is_some() && given.nth.is_none() {
        let words = "--count needs --nth, to count from";
        return Err(Stop::could_not(words.to_string()));
    }
    send_to(given.out.as_deref());
    let pack = read_pack(&given.files[0])?;
    let points = ask::pack(&pack).map_err(|why| Stop::Refused(words(&why, "pack")))?;
    if given.sectors {
        return show_sectors(&pack);
    }
    if given.suffix {
        return show_suffixes(&pack, points, given);
    }
    let name = |k| format!("point {k}");
    match (given.nth, given.count) {
        (Some(k), None) => print_one(words, &name(k), ask::pack_label(&pack, k)),
        (Some(k), Some(count)) => print_run(words, k, count, name, |first, count, out| {
            ask::pack_labels(&pack, first, count, out)
        }),
        (None, _) => {
            let listing = Listing {
                words,
                page: PAGE,
                whole: "pack",
            };
            listing.print(
                |first, count, page| ask::pack_list(&pack, first, count, page),
                |k, _| (name(k), name(k)),
            )
        }
    }
}

/// `ttw show --suffix`: each label under its suffix. Each is asked for by itself,
/// on all cores, since each such call checks the pack.
fn show_suffixes(pack: &[u8], points: u64, given: &Arguments) -> Outcome {
    let listed = given.nth.is_none();
    let (first, count) = match given.nth {
        Some(k) => (k, given.count.unwrap_or(1)),
        None => (1, points),
    };
    // The number behind the last point is refused, and none is asked for behind it.
    let numbers = (first..=u64::MAX).take(count.min(points + 1) as usize);
    let numbers: Vec<u64> = numbers.collect();
    let ask = |k: &u64| Ok((ask::pack_suffix(pack, *k)?, ask::pack_label(pack, *k)?));
    printed(|out| {
        in_order(&numbers, ask, |k, answer| {
            let subject = format!("point {k}");
            let (suffix, label) =
                answer.map_err(|why: Refusal| Stop::Refused(words(&why, &subject)))?;
            if listed {
                writeln!(out, "{subject}")?;
            }
            writeln!(out, "suffix {suffix}")?;
            Ok(out.write_all(&label)?)
        })
    })?;
    if listed {
        tell(&format!("labels printed: {points}, refused: 0"));
    }
    Ok(Ended::Done)
}

/// `ttw show --sectors`: how many points each sector has.
fn show_sectors(pack: &[u8]) -> Outcome {
    let mut lines = String::new();
    for digit in 0..=9 {
        let subject = format!("sector {digit}");
        let refused = |why| Stop::Refused(words(&why, &subject));
        let points = ask::sector(pack, digit).map_err(refused)?;
        lines += &format!("{subject}: {points}\n");
    }
    print(lines)
}
