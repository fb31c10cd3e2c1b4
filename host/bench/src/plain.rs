//! The library's calls by the plain version, of the same names, arguments and answers as in `ttw::calls`: on files those
//! of `plain_files`, on packs those of `plain_pack`, on CSV files those of `plain_csv`, on books those of `plain_book`.

use crate::plain_book;
use crate::plain_csv::Csv;
use crate::plain_files::{self, Files};
use crate::plain_pack::Pack;
use paper::{packed, packed_run, Refusal};

pub use crate::plain_files::{unspace_points, unspace_table};

/// An answer as the one number that the library answers.
pub fn answer(answer: Result<usize, Refusal>) -> u64 {
    packed(answer.map(|value| value as u64))
}

pub fn table(table: &[u8]) -> u64 {
    answer(plain_files::check_table(table))
}

pub fn points(points: &[u8]) -> u64 {
    answer(plain_files::check_points(points))
}

pub fn views(points: &[u8]) -> u64 {
    answer(plain_files::views(points))
}

pub fn letter(points: &[u8], view: u64) -> u64 {
    answer(plain_files::letter(points, view).map(usize::from))
}

pub fn live(points: &[u8], code: &[u8]) -> u64 {
    answer(plain_files::live(points, code))
}

pub fn codes(points: &[u8], out: &mut [u8]) -> u64 {
    answer(plain_files::codes(points, out))
}

pub fn label(table: &[u8], points: &[u8], view: u64, out: &mut [u8]) -> u64 {
    answer(Files::accept(table, points).and_then(|files| files.label(None, view, out)))
}

pub fn code_label(table: &[u8], points: &[u8], code: &[u8], k: u64, out: &mut [u8]) -> u64 {
    answer(Files::accept(table, points).and_then(|files| files.label(Some(code), k, out)))
}

pub fn build(table: &[u8], points: &[u8], code: &[u8], out: &mut [u8]) -> u64 {
    answer(Files::accept(table, points).and_then(|files| files.build(code, out)))
}

pub fn pack(pack: &[u8]) -> u64 {
    answer(Pack::accept(pack).map(|pack| pack.points()))
}

pub fn pack_label(pack: &[u8], k: u64, out: &mut [u8]) -> u64 {
    answer(Pack::accept(pack).and_then(|pack| pack.label(k, out)))
}

pub fn pack_suffix(pack: &[u8], k: u64) -> u64 {
    answer(Pack::accept(pack).and_then(|pack| pack.suffix(k)))
}

pub fn sector(pack: &[u8], digit: u64) -> u64 {
    answer(Pack::accept(pack).and_then(|pack| pack.sector(digit)))
}

pub fn csv_row(table: &[u8], points: &[u8], view: u64, out: &mut [u8]) -> u64 {
    answer(Files::accept(table, points).and_then(|files| files.row(view, out)))
}

pub fn csv(csv: &[u8]) -> u64 {
    answer(Csv::accept(csv, 1).map(|csv| csv.rows))
}

pub fn csv_label(csv: &[u8], row: u64, out: &mut [u8]) -> u64 {
    answer(Csv::accept(csv, row).and_then(|csv| csv.label(out)))
}

pub fn book(book: &[u8]) -> u64 {
    answer(plain_book::count(book))
}

pub fn book_event(book: &mut [u8], points: &[u8], view: u64) -> u64 {
    answer(plain_book::event(book, points, view))
}

pub fn book_label(book: &[u8], table: &[u8], place: u64, out: &mut [u8]) -> u64 {
    answer(plain_book::label(book, table, place, out))
}

pub fn book_build(book: &[u8], table: &[u8], code: &[u8], out: &mut [u8]) -> u64 {
    answer(plain_book::build(book, table, code, out))
}

/// Runs and listings: what they read, and how they are asked for.
macro_rules! runs {
    ($($name:ident($($read:ident),*) = |$first:ident, $count:ident, $out:ident| $run:expr;)*) => {
        $(
            pub fn $name(
                $($read: &[u8],)*
                $first: u64,
                $count: u64,
                $out: &mut [u8],
                bytes: &mut u64,
            ) -> u64 {
                packed_run($run, bytes)
            }
        )*
    };
}

runs! {
    labels(table, points) = |first, count, out| {
        Files::accept(table, points).and_then(|files| files.labels(None, first, count, out))
    };
    code_labels(table, points, code) = |first, count, out| {
        Files::accept(table, points).and_then(|files| files.labels(Some(code), first, count, out))
    };
    list(table, points) = |first, count, out| {
        Files::accept(table, points).and_then(|files| files.list(None, first, count, out))
    };
    code_list(table, points, code) = |first, count, out| {
        Files::accept(table, points).and_then(|files| files.list(Some(code), first, count, out))
    };
    pack_labels(pack) = |first, count, out| {
        Pack::accept(pack).map(|pack| pack.labels(first, count, out))
    };
    pack_list(pack) = |first, count, out| {
        Pack::accept(pack).map(|pack| pack.list(first, count, out))
    };
    csv_rows(table, points) = |first, count, out| {
        Files::accept(table, points).and_then(|files| files.rows(first, count, out))
    };
    csv_labels(csv) = |first, count, out| {
        Csv::accept(csv, first).map(|csv| csv.labels(count, out))
    };
    csv_list(csv) = |first, count, out| {
        Csv::accept(csv, first).map(|csv| csv.list(count, out))
    };
}
