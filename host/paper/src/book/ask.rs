//! What is asked of a book and a table file: "in the book's order, a place
//! standing for the view number". Refusals come in this order: 28, the table
//! file's, 12 where a code is given, then as for a pair of files.

use super::{present, Present};
use crate::address::{Texts, NO_TEXTS, ORGANISATION, ROW_TYPE};
use crate::build::build_from;
use crate::files::TableFile;
use crate::layout::POINT_FIELDS;
use crate::listing::item;
use crate::pair::organisation_texts;
use crate::refusal::Refusal;
use crate::runs::{view_run, Run};
use crate::source::{live_in, view_label, write_label, Source, View};

/// How many delivery points of an outward code are present.
pub fn live(book: &[u8], code: &[u8]) -> Result<u64, Refusal> {
    let present = present(book)?;
    let live = live_in(views_of(&present), code)?;
    Ok(live.count() as u64)
}

/// Writes the label of a place into `out` and answers its length.
pub fn label(book: &[u8], table: &[u8], place: u64, out: &mut [u8]) -> Result<usize, Refusal> {
    of_book(book, table, |kept| {
        write_label(kept, kept.views(), place, out)
    })
}

/// The same for the k-th that is present in an outward code.
pub fn code_label(
    book: &[u8],
    table: &[u8],
    code: &[u8],
    k: u64,
    out: &mut [u8],
) -> Result<usize, Refusal> {
    of_book(book, table, |kept| {
        write_label(kept, kept.live_views(code)?, k, out)
    })
}

/// Writes the labels of so many places, from `first` on, into `out`.
pub fn labels(
    book: &[u8],
    table: &[u8],
    first: u64,
    count: u64,
    out: &mut [u8],
) -> Result<Run, Refusal> {
    of_book(book, table, |kept| {
        let label = |view: &_| view_label(kept, view);
        Ok(view_run(kept.views(), first, count, out, label))
    })
}

/// The same for those that are present in an outward code.
pub fn code_labels(
    book: &[u8],
    table: &[u8],
    code: &[u8],
    first: u64,
    count: u64,
    out: &mut [u8],
) -> Result<Run, Refusal> {
    of_book(book, table, |kept| {
        let label = |view: &_| view_label(kept, view);
        Ok(view_run(kept.live_views(code)?, first, count, out, label))
    })
}

/// Lists so many places, from `first` on, in `out`.
pub fn list(
    book: &[u8],
    table: &[u8],
    first: u64,
    count: u64,
    out: &mut [u8],
) -> Result<Run, Refusal> {
    of_book(book, table, |kept| {
        let listed = |view: &_| Ok(entry(kept, view));
        Ok(view_run(kept.views(), first, count, out, listed))
    })
}

/// The same for those that are present in an outward code.
pub fn code_list(
    book: &[u8],
    table: &[u8],
    code: &[u8],
    first: u64,
    count: u64,
    out: &mut [u8],
) -> Result<Run, Refusal> {
    of_book(book, table, |kept| {
        let listed = |view: &_| Ok(entry(kept, view));
        Ok(view_run(kept.live_views(code)?, first, count, out, listed))
    })
}

/// Writes the pack of an outward code into `out` and answers its length.
pub fn build(book: &[u8], table: &[u8], code: &[u8], out: &mut [u8]) -> Result<usize, Refusal> {
    of_book(book, table, |kept| build_from(kept, code, out))
}

/// The line `place` and its number, then the label, or the line of its refusal.
fn entry<'a>(kept: Kept<'a>, view: &View<'a>) -> Vec<u8> {
    item(format!("place {}\n", view.number), view_label(kept, view))
}

/// Asks a book and a table file that are both accepted.
fn of_book<T>(
    book: &[u8],
    table: &[u8],
    ask: impl FnOnce(Kept) -> Result<T, Refusal>,
) -> Result<T, Refusal> {
    let present = present(book)?;
    let table = TableFile::accept(table)?;
    ask(Kept {
        present: &present,
        table,
    })
}

/// A book and a table file that have both been accepted: a source, whose views
/// are what is present.
#[derive(Clone, Copy)]
struct Kept<'a> {
    present: &'a [Present],
    table: TableFile<'a>,
}

/// The views that are present; a place stands for the view number.
fn views_of(present: &[Present]) -> impl Iterator<Item = View<'_>> {
    let numbered = present.iter().enumerate().zip(1..);
    numbered.map(|((at, present), number)| View {
        number,
        at,
        record: &present.view,
        fields: &POINT_FIELDS,
    })
}

impl<'a> Source<'a> for Kept<'a> {
    fn views(self) -> impl Iterator<Item = View<'a>> {
        views_of(self.present)
    }

    /// The row in force, as a record number of the table file; for an
    /// organisation where its owner stands among the present ones.
    fn row(self, view: &View<'a>, place: usize) -> Option<usize> {
        match place {
            ORGANISATION => Some(view.at),
            _ => self.table.row(ROW_TYPE[place], view.key(place)),
        }
    }

    fn texts(self, place: usize, row: usize) -> Texts<'a> {
        if place != ORGANISATION {
            return self.table.texts(row);
        }
        let follower = self.present[row].follower.as_deref();
        follower.map_or(NO_TEXTS, organisation_texts)
    }
}
