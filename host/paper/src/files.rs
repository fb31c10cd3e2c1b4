//! Document 01, "Record layouts", "Sequence" (as document 02, No. 3, has it)
//! and "Followers": a file is
//! accepted, or the first refusal in the order 1, 2, 3, then record by record
//! 4, 5, 6.

use crate::address::{Texts, NO_TEXTS};
use crate::fields::trimmed;
use crate::layout::{point, table, FileRules, FEWEST_RECORDS, POINTS, POINT_FIELDS, TABLE};
use crate::records::{is_header, is_trailer};
use crate::refusal::Refusal;
use crate::source::{codes_of, live_in, needs_organisation, nth, View};
use std::ops::Range;

pub use crate::records::{point_fault, table_fault};

/// The number of records of an accepted table file, or its first refusal.
pub fn check_table(table: &[u8]) -> Result<usize, Refusal> {
    check_file(table, &TABLE, table_fault)
}

/// The number of records of an accepted file whose records stand each for
/// itself, or its first refusal.
pub(crate) fn check_file(
    file: &[u8],
    rules: &FileRules,
    fault: fn(&[u8]) -> usize,
) -> Result<usize, Refusal> {
    let records = check_frame(file, rules)?;
    for number in 2..records {
        check_record(file, rules, number, fault)?;
    }
    Ok(records)
}

/// The number of records of an accepted point file, or its first refusal.
pub fn check_points(points: &[u8]) -> Result<usize, Refusal> {
    check_points_by(points, &POINTS)
}

fn check_points_by(points: &[u8], rules: &FileRules) -> Result<usize, Refusal> {
    let records = check_frame(points, rules)?;
    for number in 2..records {
        check_record(points, rules, number, point_fault)?;
        check_follower(points, number)?;
    }
    Ok(records)
}

/// How many views the point file has.
pub fn views(points: &[u8]) -> Result<usize, Refusal> {
    Ok(PointFile::accept(points)?.views().count())
}

/// The amendment letter of a view; 7 where there is no view of that number.
pub fn letter(points: &[u8], view: u64) -> Result<u8, Refusal> {
    let view = nth(PointFile::accept(points)?.views(), view)?;
    Ok(view.letter().unwrap_or_default())
}

/// How many live views of an outward code the point file has.
pub fn live(points: &[u8], code: &[u8]) -> Result<usize, Refusal> {
    let points = PointFile::accept(points)?;
    Ok(live_in(points.views(), code)?.count())
}

/// The outward codes with live views, rising, into `out`: each its 4 bytes and how
/// many live views it has in 4, the most significant first. The value is how many
/// codes there are; 10 where `out` is shorter.
pub fn codes(points: &[u8], out: &mut [u8]) -> Result<usize, Refusal> {
    codes_of(PointFile::accept(points)?.views(), out)
}

/// The record of that number; the header is number 1.
pub(crate) fn record_at<'a>(file: &'a [u8], rules: &FileRules, number: usize) -> &'a [u8] {
    &file[(number - 1) * rules.record..number * rules.record]
}

/// Refusals 1, 2 and 3: length, header, trailer. Answers the records.
fn check_frame(file: &[u8], rules: &FileRules) -> Result<usize, Refusal> {
    let records = file.len() / rules.record;
    let whole = file.len().is_multiple_of(rules.record);
    if !whole || !(FEWEST_RECORDS..=rules.most_records).contains(&records) {
        return Err(Refusal::of_file(rules.file, 1, 0));
    }
    if !is_header(record_at(file, rules, 1), rules) {
        return Err(Refusal::of_file(rules.file, 2, 1));
    }
    if !is_trailer(record_at(file, rules, records), rules, records) {
        return Err(Refusal::of_file(rules.file, 3, records as u64));
    }
    Ok(records)
}

/// Refusals 4 and 5: the record is well formed, and each but the first between
/// header and trailer is above the one before, compared as bytes.
fn check_record(
    file: &[u8],
    rules: &FileRules,
    number: usize,
    fault: fn(&[u8]) -> usize,
) -> Result<(), Refusal> {
    let record = record_at(file, rules, number);
    let byte = fault(record);
    if byte != 0 {
        return Err(Refusal::malformed(rules.file, number, byte));
    }
    if number > 2 {
        let before = record_at(file, rules, number - 1);
        if sequence_of(record, rules).le(sequence_of(before, rules)) {
            return Err(Refusal::of_file(rules.file, 5, number as u64));
        }
    }
    Ok(())
}

/// The fields of a record by which it is above the one before.
pub(crate) fn sequence_of<'a>(
    record: &'a [u8],
    rules: &'a FileRules,
) -> impl Iterator<Item = &'a [u8]> {
    rules.sequence.iter().map(|field| &record[field.clone()])
}

/// The last of these record numbers for which this holds, if it holds for the
/// first ones of them and for no other. It is looked for by halving.
pub(crate) fn last_that(numbers: Range<usize>, holds: impl Fn(usize) -> bool) -> Option<usize> {
    let first = numbers.start;
    let Range { mut start, mut end } = numbers;
    while start < end {
        let middle = start + (end - start) / 2;
        if holds(middle) {
            start = middle + 1;
        } else {
            end = middle;
        }
    }
    (start > first).then(|| start - 1)
}

/// Refusal 6: a type 1 record that lacks its follower, or a stray type 2 or 3.
///
/// The next record is judged by its first 42 bytes alone. It may be the
/// trailer, whose first 14 bytes are never digits, so that it follows no view.
/// A type 2 or 3 isn't stray exactly where the record before is a view that
/// needs a follower: that view has been found to have this one.
fn check_follower(points: &[u8], number: usize) -> Result<(), Refusal> {
    let record = record_at(points, &POINTS, number);
    let in_order = if is_view(record) {
        let next = record_at(points, &POINTS, number + 1);
        follower_type(record).is_none_or(|kind| is_owned(next, record, kind))
    } else {
        let before = record_at(points, &POINTS, number - 1);
        number > 2 && is_view(before) && follower_type(before).is_some()
    };
    if in_order {
        Ok(())
    } else {
        Err(Refusal::of_file(POINTS.file, 6, number as u64))
    }
}

/// Whether a record is of that type and has its owner's first 41 bytes.
pub(crate) fn is_owned(record: &[u8], owner: &[u8], kind: &[u8]) -> bool {
    record[point::TYPE] == *kind && record[point::OWNED] == owner[point::OWNED]
}

/// Whether a record between header and trailer is of type 1.
pub(crate) fn is_view(record: &[u8]) -> bool {
    record[point::TYPE] == *b"1"
}

/// The record type that a view needs next: S with an organisation key above
/// zero a type 2, L a type 3, S with key zero none.
pub(crate) fn follower_type(view: &[u8]) -> Option<&'static [u8]> {
    let kind: &[u8] = match &view[point::POSTCODE_TYPE] {
        b"L" => b"3",
        _ => b"2",
    };
    needs_organisation(view, &POINT_FIELDS).then_some(kind)
}

/// A table file that has been accepted.
#[derive(Clone, Copy)]
pub(crate) struct TableFile<'a> {
    file: &'a [u8],
    records: usize,
}

impl<'a> TableFile<'a> {
    pub fn accept(file: &'a [u8]) -> Result<TableFile<'a>, Refusal> {
        let records = check_table(file)?;
        Ok(TableFile { file, records })
    }

    pub fn accept_of_any_length(file: &'a [u8]) -> Result<TableFile<'a>, Refusal> {
        let records = check_file(file, &TABLE.of_any_length(), table_fault)?;
        Ok(TableFile { file, records })
    }

    pub fn records(self) -> usize {
        self.records
    }

    /// The numbers of the records between header and trailer.
    fn numbers(self) -> Range<usize> {
        2..self.records
    }

    fn record(self, number: usize) -> &'a [u8] {
        record_at(self.file, &TABLE, number)
    }

    /// The number of the row in force for a type and a key: the last record
    /// that stands for them. Where its letter is B or D, none is in force.
    pub fn row(self, row_type: u8, key: &[u8]) -> Option<usize> {
        let last = self.last_row(row_type, key)?;
        let letter = self.record(last)[table::LETTER.start];
        (!matches!(letter, b'B' | b'D')).then_some(last)
    }

    /// The last record for a type and a key; the records rise.
    fn last_row(self, row_type: u8, key: &[u8]) -> Option<usize> {
        let mut wanted = [b'0' + row_type; 9];
        wanted[table::KEY].copy_from_slice(key);
        let last = last_that(self.numbers(), |number| {
            self.record(number)[table::NAME] <= wanted[..]
        })?;
        let found = self.record(last)[table::NAME] == wanted[..];
        found.then_some(last)
    }

    /// The type of a row, as a number.
    fn row_type(self, number: usize) -> u8 {
        self.record(number)[0] - b'0'
    }

    /// The texts of a row.
    pub fn texts(self, number: usize) -> Texts<'a> {
        let record = self.record(number);
        let mut texts = NO_TEXTS;
        match self.row_type(number) {
            1 => {
                texts[0] = trimmed(&record[table::POST_TOWN]);
                texts[1] = trimmed(&record[table::DEPENDENT_LOCALITY]);
                texts[2] = trimmed(&record[table::DOUBLE_DEPENDENT_LOCALITY]);
            }
            2 => texts[0] = trimmed(&record[table::THOROUGHFARE]),
            3 => texts[0] = trimmed(&record[table::DESCRIPTOR]),
            4 => texts[0] = trimmed(&record[table::BUILDING_NAME]),
            _ => texts[0] = trimmed(&record[table::SUB_BUILDING_NAME]),
        }
        texts
    }
}

/// A point file that has been accepted.
#[derive(Clone, Copy)]
pub(crate) struct PointFile<'a> {
    file: &'a [u8],
    records: usize,
}

impl<'a> PointFile<'a> {
    pub fn accept(file: &'a [u8]) -> Result<PointFile<'a>, Refusal> {
        let records = check_points(file)?;
        Ok(PointFile { file, records })
    }

    pub fn accept_of_any_length(file: &'a [u8]) -> Result<PointFile<'a>, Refusal> {
        let records = check_points_by(file, &POINTS.of_any_length())?;
        Ok(PointFile { file, records })
    }

    pub fn records(self) -> usize {
        self.records
    }

    pub fn record(self, number: usize) -> &'a [u8] {
        record_at(self.file, &POINTS, number)
    }

    /// The follower of a view that needs one, which an accepted file has.
    pub fn follower(self, view: &View<'a>) -> Option<&'a [u8]> {
        follower_type(view.record).map(|_| self.record(view.at + 1))
    }

    /// The views, numbered from 1 in file order.
    pub fn views(self) -> impl Iterator<Item = View<'a>> {
        (2..self.records)
            .map(move |at| (at, self.record(at)))
            .filter(|(_, record)| is_view(record))
            .zip(1..)
            .map(|((at, record), number)| View {
                number,
                at,
                record,
                fields: &POINT_FIELDS,
            })
    }
}
