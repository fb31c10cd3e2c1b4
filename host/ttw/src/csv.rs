//! CSV PAF: `ttw csv`, which writes the rows of all views, and `ttw labels --csv`,
//! which prints the labels of a file of rows.

use crate::arguments::Arguments;
use crate::commands::{print_one, print_run, Listing};
use crate::files::{cannot_read, open_or_standard_input, read_whole};
use crate::output::{printed, send_to, Output};
use crate::pair::Pair;
use crate::source::Source;
use crate::stop::{tell, Ended, Outcome, Stop};
use std::io::{Read, Write};
use std::path::{Path, PathBuf};
use ttw::ask::{self, Refusal, NO_SUCH, ROOM};
use ttw::listing::MOST_TOLD;
use ttw::words::words;

/// Bytes of a page of a listing: each page costs a check of the file, and a whole
/// CSV PAF has 2 GB.
const PAGE: usize = 1 << 26;

/// A CSV file below this length has each row's number told whole; a whole CSV PAF
/// has half of it.
const LONGEST: usize = 4 << 30;

/// So many bytes from its beginning on tell a file that is something else, which
/// then does not fill the memory. No row that is accepted is as long.
const FRONT: u64 = 1 << 16;

/// The refusal of a malformed row.
const MALFORMED: u8 = 14;

/// Ends a row.
const ROW_END: &[u8] = b"\r\n";

/// `ttw csv`.
pub fn csv(given: &Arguments) -> Outcome {
    write_rows(given, &given.files, Pair::read_accepted)
}

/// The rows of all views. A view whose row is refused is left out, and told once
/// all rows are where they are to be.
pub fn write_rows<S: Source>(
    given: &Arguments,
    files: &[PathBuf],
    read: impl FnOnce(&[PathBuf]) -> Result<S, Stop>,
) -> Outcome {
    send_to(given.out.as_deref());
    let source = read(files)?;
    let (rows, refused) = printed(|out| rows_of_all(&source, out))?;
    for (view, why) in &refused {
        tell(&(S::WORDS)(why, &format!("view {view}")));
    }
    let refused = refused.len() as u64;
    tell(&format!("rows written: {rows}, refused: {refused}"));
    Ok(Ended::after(refused))
}

/// A view and why it has no row.
type Refused = (u64, Refusal);

/// Writes the rows, page by page: how many, and which views were refused one.
fn rows_of_all<S: Source>(source: &S, out: &mut Output) -> Result<(u64, Vec<Refused>), Stop> {
    let mut page = vec![0; S::PAGE];
    let (mut rows, mut refused) = (0, Vec::new());
    loop {
        let next = rows + refused.len() as u64 + 1;
        let run = source.csv_rows(next, MOST_TOLD, &mut page);
        let run = run.map_err(|why| Stop::Refused((S::WORDS)(&why, "files")))?;
        out.write_all(&page[..run.bytes])?;
        rows += run.labels;
        match run.stop {
            Some(why) if why.number == NO_SUCH => return Ok((rows, refused)),
            // A page has room for any row.
            Some(why) if why.number != ROOM => refused.push((next + run.labels, why)),
            _ => {}
        }
    }
}

/// `ttw labels --csv`: one label, a run of them, or all.
pub fn print_labels(given: &Arguments, csv: &Path) -> Outcome {
    if given.view.is_some() || given.code.is_some() {
        let words = "--csv stands without --view and --code";
        return Err(Stop::could_not(words.to_string()));
    }
    if given.count.is_some() && given.nth.is_none() {
        let words = "--count needs --nth, to count from";
        return Err(Stop::could_not(words.to_string()));
    }
    send_to(given.out.as_deref());
    let csv = read(csv)?;
    ask::csv(&csv).map_err(|why| Stop::Refused(words(&why, "csv")))?;
    let name = |row| format!("row {row}");
    match (given.nth, given.count) {
        (Some(row), None) => print_one(words, &name(row), ask::csv_label(&csv, row)),
        (Some(row), Some(count)) => print_run(words, row, count, name, |first, count, out| {
            ask::csv_labels(&csv, first, count, out)
        }),
        (None, _) => {
            let listing = Listing {
                words,
                page: PAGE,
                whole: "csv",
            };
            listing.print(
                |first, count, page| ask::csv_list(&csv, first, count, page),
                |row, _| (name(row), name(row)),
            )
        }
    }
}

/// A CSV file, or what comes on standard input.
fn read(path: &Path) -> Result<Vec<u8>, Stop> {
    let (file, name) = open_or_standard_input(path);
    let mut front = Vec::new();
    let begun = file.and_then(|file| {
        (&file).take(FRONT).read_to_end(&mut front)?;
        Ok(file)
    });
    let file = begun.map_err(|why| cannot_read(&name, &why))?;
    if front.len() as u64 == FRONT {
        judge_front(&front, &name)?;
    }
    let csv = read_whole(front, file, LONGEST, &name)?;
    if csv.len() == LONGEST {
        let words = format!("{name} has 4 GiB or more: cut it between two rows");
        return Err(Stop::could_not(words));
    }
    Ok(csv)
}

/// Stops where the whole rows at the beginning of a long file have one that is
/// malformed, which is then the first of the file too; or where there are none.
fn judge_front(front: &[u8], name: &str) -> Result<(), Stop> {
    let two = ROW_END.len();
    let Some(last) = front.windows(two).rposition(|bytes| bytes == ROW_END) else {
        let words = format!("{name} is no CSV file: no row ends in its first {FRONT} bytes");
        return Err(Stop::could_not(words));
    };
    match ask::csv(&front[..last + two]) {
        Err(why) if why.number == MALFORMED => Err(Stop::Refused(words(&why, "csv"))),
        _ => Ok(()),
    }
}
