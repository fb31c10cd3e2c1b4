//! Document 02, No. 5: a Mainfile set, as the guide's chapter 5 lays it out. A
//! view is an address record, numbered from 1 in file order, and every one is
//! live.
//!
//! Refusals come in this order: 1 to 5 of file 1, then of file 2, up to 7; 12
//! where a code is given, then 7, 8, 9, 10, lowest detail first.

use crate::address::{Texts, NO_TEXTS, ORGANISATION, ROW_TYPE};
use crate::build::build_from;
use crate::fields::trimmed;
use crate::files::{check_file, last_that, record_at, sequence_of};
use crate::layout::{main, Field, ADDRESS_FIELDS, MAIN, MAIN_FILES};
use crate::listing::entry;
use crate::refusal::Refusal;
use crate::runs::{view_run, Run};
use crate::source::{codes_of, live_in, view_label, write_label, Source, View};

pub use crate::records::MAIN_FAULTS;

/// The seven files in document 02's order: locality, thoroughfare, descriptor,
/// building, sub building, organisation, address.
pub type Set<'a> = [&'a [u8]; MAIN_FILES];

/// Where the address file stands in a set.
const ADDRESSES: usize = MAIN_FILES - 1;

/// The number of records of each file, or its first refusal, each file for
/// itself.
pub fn check_each(set: Set) -> [Result<usize, Refusal>; MAIN_FILES] {
    std::array::from_fn(|index| check_one(index, set[index]))
}

/// The number of records of each file, or the first refusal of the first file
/// that has one.
pub fn check(set: Set) -> Result<[usize; MAIN_FILES], Refusal> {
    let mut records = [0; MAIN_FILES];
    for (index, file) in set.into_iter().enumerate() {
        records[index] = check_one(index, file)?;
    }
    Ok(records)
}

fn check_one(index: usize, file: &[u8]) -> Result<usize, Refusal> {
    check_file(file, &MAIN[index], MAIN_FAULTS[index])
}

/// How many views the set has.
pub fn views(set: Set) -> Result<usize, Refusal> {
    Ok(Mainfile::accept(set)?.views().count())
}

/// How many addresses of an outward code the address file has.
pub fn live(addresses: &[u8], code: &[u8]) -> Result<usize, Refusal> {
    let addresses = AddressFile::accept(addresses)?;
    Ok(live_in(addresses.views(), code)?.count())
}

/// The outward codes of the address file, as [`crate::codes`] writes them.
pub fn codes(addresses: &[u8], out: &mut [u8]) -> Result<usize, Refusal> {
    codes_of(AddressFile::accept(addresses)?.views(), out)
}

/// Writes the label of a view into `out` and answers its length.
pub fn label(set: Set, view: u64, out: &mut [u8]) -> Result<usize, Refusal> {
    let main = Mainfile::accept(set)?;
    write_label(main, main.views(), view, out)
}

/// Writes the label of the k-th address of an outward code into `out` and
/// answers its length.
pub fn code_label(set: Set, code: &[u8], k: u64, out: &mut [u8]) -> Result<usize, Refusal> {
    let main = Mainfile::accept(set)?;
    write_label(main, main.live_views(code)?, k, out)
}

/// Writes the labels of so many views, from number `first` on, into `out`.
pub fn labels(set: Set, first: u64, count: u64, out: &mut [u8]) -> Result<Run, Refusal> {
    let main = Mainfile::accept(set)?;
    Ok(view_run(main.views(), first, count, out, |view| {
        view_label(main, view)
    }))
}

/// Writes the labels of so many addresses of an outward code, from the first
/// that is given on, into `out`.
pub fn code_labels(
    set: Set,
    code: &[u8],
    first: u64,
    count: u64,
    out: &mut [u8],
) -> Result<Run, Refusal> {
    let main = Mainfile::accept(set)?;
    let views = main.live_views(code)?;
    Ok(view_run(views, first, count, out, |view| {
        view_label(main, view)
    }))
}

/// Lists so many views, from number `first` on: for each the line `view` with
/// its number, then the label or the line `refused`, number, detail.
pub fn list(set: Set, first: u64, count: u64, out: &mut [u8]) -> Result<Run, Refusal> {
    let main = Mainfile::accept(set)?;
    Ok(view_run(main.views(), first, count, out, |view| {
        Ok(entry(main, view))
    }))
}

/// Lists so many addresses of an outward code, from the first that is given on.
pub fn code_list(
    set: Set,
    code: &[u8],
    first: u64,
    count: u64,
    out: &mut [u8],
) -> Result<Run, Refusal> {
    let main = Mainfile::accept(set)?;
    let views = main.live_views(code)?;
    Ok(view_run(views, first, count, out, |view| {
        Ok(entry(main, view))
    }))
}

/// Writes the pack of an outward code into `out` and answers its length.
pub fn build(set: Set, code: &[u8], out: &mut [u8]) -> Result<usize, Refusal> {
    build_from(Mainfile::accept(set)?, code, out)
}

/// An address file that has been accepted.
#[derive(Clone, Copy)]
struct AddressFile<'a> {
    file: &'a [u8],
    records: usize,
}

impl<'a> AddressFile<'a> {
    fn accept(file: &'a [u8]) -> Result<AddressFile<'a>, Refusal> {
        let records = check_one(ADDRESSES, file)?;
        Ok(AddressFile { file, records })
    }

    fn views(self) -> impl Iterator<Item = View<'a>> {
        (2..self.records).zip(1..).map(move |(at, number)| View {
            number,
            at,
            record: record_at(self.file, &MAIN[ADDRESSES], at),
            fields: &ADDRESS_FIELDS,
        })
    }
}

/// A Mainfile set that has been accepted.
#[derive(Clone, Copy)]
pub(crate) struct Mainfile<'a> {
    set: Set<'a>,
    records: [usize; MAIN_FILES],
}

impl<'a> Mainfile<'a> {
    pub fn accept(set: Set<'a>) -> Result<Mainfile<'a>, Refusal> {
        let records = check(set)?;
        Ok(Mainfile { set, records })
    }

    /// How many records stand in the files before the one at that place.
    fn records_before(self, index: usize) -> usize {
        self.records[..index].iter().sum()
    }

    /// The number of the record of a file whose sequence is this, the file
    /// standing at that place in the set.
    fn record_of(self, index: usize, wanted: &[&[u8]]) -> Option<usize> {
        let sequence = |number| {
            sequence_of(
                record_at(self.set[index], &MAIN[index], number),
                &MAIN[index],
            )
        };
        let last = last_that(2..self.records[index], |number| {
            sequence(number).le(wanted.iter().copied())
        })?;
        sequence(last).eq(wanted.iter().copied()).then_some(last)
    }
}

/// Where the file of the rows that a reference names stands in a set.
fn file_of(place: usize) -> usize {
    usize::from(ROW_TYPE[place]) - 1
}

impl<'a> Source<'a> for Mainfile<'a> {
    fn views(self) -> impl Iterator<Item = View<'a>> {
        let addresses = AddressFile {
            file: self.set[ADDRESSES],
            records: self.records[ADDRESSES],
        };
        addresses.views()
    }

    /// The row's record number, counted through the files. A small user's
    /// organisation goes by its organisation key, a large user's by the address
    /// key.
    fn row(self, view: &View<'a>, place: usize) -> Option<usize> {
        let index = file_of(place);
        let record = match (place, view.postcode_type()) {
            (ORGANISATION, b"L") => self.record_of(index, &[b"L", view.address_key()]),
            (ORGANISATION, _) => self.record_of(index, &[b"S", view.organisation_key()]),
            _ => self.record_of(index, &[view.key(place)]),
        };
        Some(self.records_before(index) + record?)
    }

    fn texts(self, place: usize, row: usize) -> Texts<'a> {
        let index = file_of(place);
        let number = row - self.records_before(index);
        let record = record_at(self.set[index], &MAIN[index], number);
        let mut texts = NO_TEXTS;
        for (text, field) in texts.iter_mut().zip(text_fields(index)) {
            *text = trimmed(&record[field.clone()]);
        }
        texts
    }
}

/// The texts of a row of the file that stands at that place in a set.
fn text_fields(index: usize) -> &'static [Field] {
    match index {
        0 => &[
            main::POST_TOWN,
            main::DEPENDENT_LOCALITY,
            main::DOUBLE_DEPENDENT_LOCALITY,
        ],
        1 => &[main::THOROUGHFARE],
        2 => &[main::DESCRIPTOR],
        3 => &[main::BUILDING_NAME],
        4 => &[main::SUB_BUILDING_NAME],
        _ => &[main::ORGANISATION, main::DEPARTMENT],
    }
}
