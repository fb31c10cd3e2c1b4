//! What an extract has to know of a pair and of a set: where a record has its
//! outward code, whether it is live, and which rows it refers to.

use super::counts::Counts;
use super::rows::Number;
use crate::kind::{Kind, MAIN, POINTS, TABLE};
use crate::stop::Stop;
use std::path::Path;

/// An outward code, padded.
pub type Outward = [u8; 4];

/// A row that a record refers to: its file's place among the files of rows, and
/// its number, 0 where there is none.
pub type Reference = (usize, Number);

/// A file of rows, and the number that a row of it has.
pub type RowFile = (&'static Kind, fn(&[u8]) -> Number);

/// A pair or a set.
pub struct Form {
    /// The files of rows.
    pub rows: &'static [RowFile],
    /// The file of the records that have an outward code.
    pub records: &'static Kind,
    /// The names of the files of a part, that of the records last.
    pub names: &'static [&'static str],
    /// Where a record has its outward code.
    code: usize,
    /// Whether a record is a live view.
    pub is_live: fn(&[u8]) -> bool,
    /// The rows that a record refers to.
    pub references: fn(&[u8]) -> [Reference; 8],
    /// What stands in the folder of a part, which the library has to accept.
    pub found: fn(&Path) -> Result<Counts, Stop>,
}

impl Form {
    /// The outward code of a record.
    pub fn code(&self, record: &[u8]) -> Outward {
        let code = &record[self.code..self.code + 4];
        code.try_into().expect("4 bytes")
    }
}

/// Changes1 and Changes2.
pub static PAIR: Form = Form {
    rows: &[(&TABLE, |row| number(&row[..9]))],
    records: &POINTS,
    names: &["changes1", "changes2"],
    code: 14,
    is_live: |record| !POINTS.follows(record) && matches!(record[40], b'I' | b'C'),
    references: rows_of_view,
    found: super::pair::found,
};

/// A table row is found by its type and its key, as they stand one behind the
/// other.
fn rows_of_view(record: &[u8]) -> [Reference; 8] {
    if POINTS.follows(record) {
        return [(0, 0); 8];
    }
    let row = |row_type: Number, at: usize| match number(&record[at..at + 8]) {
        0 => (0, 0),
        key => (0, row_type * 100_000_000 + key),
    };
    [
        row(1, 42),
        row(2, 50),
        row(3, 58),
        row(2, 66),
        row(3, 74),
        row(4, 86),
        row(5, 94),
        (0, 0),
    ]
}

/// A Mainfile set.
pub static SET: Form = Form {
    rows: &[
        (&MAIN[0], |row| number(&row[..6])),
        (&MAIN[1], |row| number(&row[..8])),
        (&MAIN[2], |row| number(&row[..4])),
        (&MAIN[3], |row| number(&row[..8])),
        (&MAIN[4], |row| number(&row[..8])),
        (&MAIN[5], |row| organisation(row[8], &row[..8])),
    ],
    records: &MAIN[6],
    names: &[
        "locality",
        "thoroughfare",
        "descriptor",
        "building",
        "subbuilding",
        "organisation",
        "address",
    ],
    code: 0,
    is_live: |_| true,
    references: rows_of_address,
    found: super::set::found,
};

/// The places of the files of which an address may name two rows.
pub const TWICE: [usize; 2] = [1, 2];

/// A small user's organisation is found by the organisation key, a large user's
/// by the address key.
fn rows_of_address(record: &[u8]) -> [Reference; 8] {
    let joined = match record[77] {
        b'L' => &record[7..15],
        _ => &record[69..77],
    };
    [
        (0, number(&record[15..21])),
        (1, number(&record[21..29])),
        (2, number(&record[29..33])),
        (1, number(&record[33..41])),
        (2, number(&record[41..45])),
        (3, number(&record[49..57])),
        (4, number(&record[57..65])),
        (5, organisation(record[77], joined)),
    ]
}

/// The number of an organisation: those of large users stand before all others.
fn organisation(postcode_type: u8, key: &[u8]) -> Number {
    match (postcode_type, number(key)) {
        (b'L', key) => key,
        (_, 0) => 0,
        (_, key) => 100_000_000 + key,
    }
}

/// The value of some digits.
fn number(digits: &[u8]) -> Number {
    digits
        .iter()
        .fold(0, |value, digit| 10 * value + Number::from(digit - b'0'))
}
