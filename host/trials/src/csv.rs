//! Each call on rows of CSV PAF asked beside the second program, and runs beside the library's own calls in turn too.

use crate::agree::{lent, printed, same};
use crate::main_sets::lent_set;
use crate::runs::{item, rows_same_thrice, same_thrice, Asked};
use paper::csv;
use paper::mainfile::Set;
use ttw::{calls, main_calls};

/// The row of a view, or the refusal, with a buffer of so many bytes.
#[track_caller]
pub fn row(table: &[u8], points: &[u8], view: u64, room: usize) -> u64 {
    let library = |out: &mut [u8]| {
        lent(table, |table| {
            lent(points, |points| calls::csv_row(table, points, view, out))
        })
    };
    printed(
        &format!("row of {view} into {room} bytes"),
        points,
        room,
        library,
        |out| csv::row(table, points, view, out),
    )
}

/// The same of a Mainfile set.
#[track_caller]
pub fn main_row(set: Set, view: u64, room: usize) -> u64 {
    printed(
        &format!("row of {view} into {room} bytes"),
        set[6],
        room,
        |out| lent_set(set, |set| main_calls::csv_row(set, view, out)),
        |out| csv::main_row(set, view, out),
    )
}

/// A run of rows of a pair: its answer.
#[track_caller]
pub fn rows(table: &[u8], points: &[u8], asked: Asked) -> u64 {
    let Asked { first, count, .. } = asked;
    let library = |out: &mut [u8], bytes: &mut u64| {
        lent(table, |table| {
            lent(points, |points| {
                calls::csv_rows(table, points, first, count, out, bytes)
            })
        })
    };
    rows_same_thrice(
        asked,
        library,
        |view, out| calls::csv_row(table, points, view, out),
        |out| csv::rows(table, points, first, count, out),
    )
}

/// The same of a Mainfile set.
#[track_caller]
pub fn main_rows(set: Set, asked: Asked) -> u64 {
    let Asked { first, count, .. } = asked;
    rows_same_thrice(
        asked,
        |out, bytes| {
            lent_set(set, |set| {
                main_calls::csv_rows(set, first, count, out, bytes)
            })
        },
        |view, out| main_calls::csv_row(set, view, out),
        |out| csv::main_rows(set, first, count, out),
    )
}

/// How many rows a CSV file has, or its refusal.
#[track_caller]
pub fn check(file: &[u8]) -> u64 {
    let answer = lent(file, calls::csv);
    let plain = csv::check(file).map(|rows| rows as u64);
    same("csv", file, answer, plain)
}

/// The label of a row, or the refusal, with a buffer of so many bytes.
#[track_caller]
pub fn label(file: &[u8], row: u64, room: usize) -> u64 {
    printed(
        &format!("label of row {row} into {room} bytes"),
        file,
        room,
        |out| lent(file, |file| calls::csv_label(file, row, out)),
        |out| csv::label(file, row, out),
    )
}

/// A run of labels of a CSV file: its answer.
#[track_caller]
pub fn labels(file: &[u8], asked: Asked) -> u64 {
    let Asked { first, count, .. } = asked;
    same_thrice(
        asked,
        |out, bytes| {
            lent(file, |file| {
                calls::csv_labels(file, first, count, out, bytes)
            })
        },
        |row, out| calls::csv_label(file, row, out),
        |out| csv::labels(file, first, count, out),
    )
}

/// A listing of a CSV file: its answer.
#[track_caller]
pub fn list(file: &[u8], asked: Asked) -> u64 {
    let Asked { first, count, .. } = asked;
    let one = |row, out: &mut [u8]| {
        let line = || format!("row {row}\n");
        item(line, |room| calls::csv_label(file, row, room), out)
    };
    same_thrice(
        asked,
        |out, bytes| lent(file, |file| calls::csv_list(file, first, count, out, bytes)),
        one,
        |out| csv::list(file, first, count, out),
    )
}

/// Every call on a CSV file; the answer to how many rows there are. A refusal of the file has to be the same from each,
/// whatever is asked.
#[track_caller]
pub fn ask(file: &[u8], row: u64) -> u64 {
    let answer = check(file);
    let others = [
        label(file, row, 0),
        label(file, row, 499),
        labels(file, Asked::new(row, 3, 700)),
        labels(file, Asked::new(row, 0, 0)),
        list(file, Asked::new(row, 3, 700)),
        list(file, Asked::new(u64::MAX, u64::MAX, 0)),
    ];
    if answer >> 56 != 0 {
        assert_eq!(others, [answer; 6]);
    }
    answer
}
