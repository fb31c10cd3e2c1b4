//! Whether a file of a set is accepted, in one pass over its records.

use crate::plain_fields::{
    begins, blank, filled, is_digit, is_mark, is_one, optional, text, Frame, INWARD,
};
use paper::fields::outward_fault;

/// A record of the organisation file, and one of the address file.
pub type Organisation = [u8; 153];
pub type Address = [u8; 88];

/// The most records of a file.
pub const MOST: usize = 1_000_000;

/// Eight bytes as a number that rises as they do.
pub fn eight(record: &[u8], at: usize) -> u64 {
    u64::from_be_bytes(record[at..at + 8].try_into().expect("8 bytes"))
}

/// The key of so many digits at a place, as such a number.
pub fn key(record: &[u8], at: usize, digits: usize) -> u64 {
    eight(record, at) >> (64 - 8 * digits)
}

/// Type and key of an organisation, as numbers that rise as they do.
pub fn name_of(organisation: &Organisation) -> (u8, u64) {
    (organisation[8], eight(organisation, 0))
}

/// The records between header and trailer, where each is well formed beside the one before and rises above it, the first
/// above what is given.
fn accepted<'a, const WIDTH: usize, K: Ord>(
    file: &'a [u8],
    (mark, name): (usize, &'static [u8; 8]),
    mut last: K,
    sequence: impl Fn(&[u8; WIDTH]) -> K,
    fine: impl Fn(&[u8; WIDTH], &[u8; WIDTH]) -> bool,
) -> Option<&'a [[u8; WIDTH]]> {
    let frame = Frame {
        most: MOST,
        mark,
        digits: 8,
        name,
    };
    let [before @ .., _] = frame.records(file)? else {
        return None;
    };
    let records = &before[1..];
    let all = records.iter().zip(before).all(|(record, before)| {
        let next = sequence(record);
        let above = next > last;
        last = next;
        above & fine(record, before)
    });
    all.then_some(records)
}

/// A byte so many times.
const fn times(byte: u64, digits: usize) -> u64 {
    byte * (0x0101_0101_0101_0101 >> (64 - 8 * digits))
}

/// The key zero, of so many digits: rows above it have another.
const fn zero(digits: usize) -> u64 {
    times(b'0' as u64, digits)
}

/// Whether a key has no byte but digits: what each is beside 0 is below 10.
fn are_digits(key: u64, digits: usize) -> bool {
    let beside = key ^ zero(digits);
    (beside | beside.wrapping_add(times(6, digits))) & times(0xF0, digits) == 0
}

/// Whether a text is well formed and not blank, sixteen bytes at a time, the last sixteen perhaps once more.
fn named(bytes: &[u8]) -> bool {
    let parts = bytes.chunks_exact(16);
    let most = parts.fold(true, |all, part| all & text(part));
    most & text(&bytes[bytes.len() - 16..]) & (bytes[0] != b' ')
}

/// The rows of a file whose rows are a key of so many digits and a text that ends at a place.
macro_rules! rows {
    ($($file:ident: $width:literal $name:literal $digits:literal $end:literal;)*) => {
        $(pub fn $file(file: &[u8]) -> Option<&[[u8; $width]]> {
            let sequence = |row: &[u8; $width]| key(row, 0, $digits);
            accepted(file, (0, $name), zero($digits), sequence, |row, _| {
                are_digits(sequence(row), $digits) & named(&row[$digits..$end])
            })
        })*
    };
}

rows! {
    thoroughfares: 68 b"THOROUGH" 8 68;
    descriptors: 30 b"THDESCRI" 4 24;
    buildings: 58 b"BUILDING" 8 58;
    sub_buildings: 38 b"SUBBUILD" 8 38;
}

pub fn localities(file: &[u8]) -> Option<&[[u8; 151]]> {
    let sequence = |row: &[u8; 151]| key(row, 0, 6);
    accepted(file, (0, b"LOCALITY"), zero(6), sequence, |row, _| {
        are_digits(sequence(row), 6) & is_locality(row)
    })
}

/// Whether a row has a town, and a double dependent locality only beside a dependent one.
fn is_locality(row: &[u8; 151]) -> bool {
    let (dependent, double) = (&row[81..116], &row[116..]);
    let alone = (dependent[0] == b' ') & (double[0] != b' ');
    filled(&row[51..]) & begins(dependent) & begins(double) & !alone
}

pub fn organisations(file: &[u8]) -> Option<&[Organisation]> {
    accepted(file, (0, b"ORGANISA"), (0, 0), name_of, |row, _| {
        is_organisation(row)
    })
}

fn is_organisation(row: &Organisation) -> bool {
    let ((kind, key), name) = (name_of(row), &row[9..69]);
    let kinds = (kind == b'S') | (kind == b'L');
    let named = (name[0] != b' ') | ((kind == b'L') & blank(name));
    let key = are_digits(key, 8) & (key != zero(8));
    key & kinds & text(&row[9..129]) & named & begins(&row[69..129])
}

pub fn addresses(file: &[u8]) -> Option<&[Address]> {
    let sequence = |record: &Address| (eight(record, 0), eight(record, 7), eight(record, 69));
    accepted(file, (7, b"ADDRESS "), (0, 0, 0), sequence, is_address)
}

/// Whether a record is an address. A code that is that of the record before was tested there; a header has none.
fn is_address(address: &Address, before: &Address) -> bool {
    let known = (address[0] > b' ') & (address[..4] == before[..4]);
    let code = known || outward_fault(&address[..4]) == 0;
    let inward = is_digit(address[4]) & is_one(address[5], INWARD) & is_one(address[6], INWARD);
    let keys = (7..77).step_by(8).fold(true, |all, at| {
        all & are_digits(eight(address, at.min(69)), 8)
    });
    let suffix = is_digit(address[79]) & (address[80].wrapping_sub(b'A') < 26);
    let user = (address[77] == b'S') | (address[77] == b'L');
    let marks = is_mark(address[78]) & is_mark(address[81]);
    code & inward & keys & suffix & user & marks & optional(&address[82..])
}
