//! Lengths, headers and trailers.

use crate::{KINDS, POINTS, TABLE};
use paper::make::{exact_pair, worked_pair, Rng};

/// Numbers of records at the edges of what a file may have.
const EDGES: [usize; 7] = [0, 1, 2, 3, 19_999, 20_000, 20_001];

/// The bytes of which an identifier may be made, and some beside them.
const IDENTIFIER_BYTES: [u8; 8] = [0, b' ', 255, 1, 31, 33, b'0', 254];

fn is_allowed(records: usize) -> bool {
    (2..=20_000).contains(&records)
}

#[test]
fn zeros_and_spaces_at_the_edges() {
    for kind in KINDS {
        for records in EDGES {
            let whole = records * kind.record;
            for length in [whole.saturating_sub(1), whole, whole + 1] {
                let (number, record) = match length == whole && is_allowed(records) {
                    true => (2, 1),
                    false => (1, 0),
                };
                kind.assert_refused(&vec![0; length], number, record);
                kind.assert_refused(&vec![b' '; length], number, record);
            }
        }
    }
}

/// Of the smallest file, no record and the header alone are tried too.
#[test]
fn files_without_another_fault_at_the_edges() {
    for records in EDGES {
        let pair = exact_pair(&mut Rng::new(9), records, records);
        for (kind, mut file) in KINDS.iter().zip([pair.table, pair.points]) {
            file.truncate(records * kind.record);
            match is_allowed(records) {
                true => kind.assert_taken(&file, records),
                false => kind.assert_refused(&file, 1, 0),
            }
            file.push(b' ');
            kind.assert_refused(&file, 1, 0);
            file.truncate((records * kind.record).saturating_sub(1));
            kind.assert_refused(&file, 1, 0);
        }
    }
}

#[test]
fn a_file_of_the_other_kind_is_refused() {
    let pair = worked_pair();
    TABLE.assert_refused(&pair.points, 1, 0);
    POINTS.assert_refused(&pair.table, 1, 0);
    // 168 records of 169 bytes are 169 records of 168.
    let pair = exact_pair(&mut Rng::new(9), 168, 169);
    TABLE.assert_refused(&pair.points, 2, 1);
    POINTS.assert_refused(&pair.table, 2, 1);
}

#[test]
fn identifiers_of_one_byte_throughout() {
    let pair = worked_pair();
    for (kind, accepted) in KINDS.iter().zip([&pair.table, &pair.points]) {
        let records = accepted.len() / kind.record;
        let trailer = accepted.len() - kind.record;
        for header_byte in 0..=255 {
            for trailer_byte in 0..=255 {
                let mut file = accepted.clone();
                file[..kind.identifier].fill(header_byte);
                file[trailer..][..kind.identifier].fill(trailer_byte);
                match (header_byte, trailer_byte) {
                    (0 | b' ', 255 | b' ') => kind.assert_taken(&file, records),
                    (0 | b' ', _) => kind.assert_refused(&file, 3, records),
                    _ => kind.assert_refused(&file, 2, 1),
                }
            }
        }
    }
}

/// Every identifier that is one of these bytes throughout but for one place, or
/// up to a place and another from there.
fn mixtures(width: usize) -> Vec<Vec<u8>> {
    let mut mixtures = Vec::new();
    for base in IDENTIFIER_BYTES {
        for other in IDENTIFIER_BYTES.into_iter().filter(|byte| *byte != base) {
            for at in 0..width {
                let mut one_place = vec![base; width];
                one_place[at] = other;
                mixtures.push(one_place);
            }
            for at in 1..width {
                let mut two_halves = vec![base; width];
                two_halves[at..].fill(other);
                mixtures.push(two_halves);
            }
        }
    }
    mixtures
}

#[test]
fn identifiers_of_several_bytes_are_refused() {
    let pair = worked_pair();
    for (kind, accepted) in KINDS.iter().zip([&pair.table, &pair.points]) {
        let records = accepted.len() / kind.record;
        let trailer = accepted.len() - kind.record;
        for identifier in mixtures(kind.identifier) {
            let mut file = accepted.clone();
            file[trailer..][..kind.identifier].copy_from_slice(&identifier);
            kind.assert_refused(&file, 3, records);
            file[..kind.identifier].copy_from_slice(&identifier);
            kind.assert_refused(&file, 2, 1);
        }
    }
}

/// The count is 8 digits; a number that has them as its value in another way
/// isn't one.
#[test]
fn counts_that_are_not_the_records() {
    let pair = worked_pair();
    for (kind, accepted) in KINDS.iter().zip([&pair.table, &pair.points]) {
        let records = accepted.len() / kind.record;
        let count = accepted.len() - kind.record + kind.identifier;
        let wrong = [
            format!("{:08}", records - 1),
            format!("{:08}", records + 1),
            format!("{:08}", records * 10),
            format!("{:08}", 100_000 * records),
            format!("{records:8}"),
            format!("{records:<8}"),
            format!("{:08}", 0),
            format!("+{records:07}"),
            format!("0000000{}", char::from(records as u8)),
            format!("1{records:07}"),
        ];
        for text in wrong {
            let mut file = accepted.clone();
            file[count..][..8].copy_from_slice(text.as_bytes());
            kind.assert_refused(&file, 3, records);
        }
    }
}
