//! Document 02, No. 9, "Stop the space identifiers": a file rewritten in place,
//! so that what was read with spaces is read without.

use crate::layout::{FileRules, FEWEST_RECORDS, POINTS, TABLE};
use crate::records::is_all;

/// Rewrites the identifiers of a table file that are spaces throughout, zero
/// bytes in the header and 255 in the trailer: how many they were. Every other
/// byte stays, and so does a file that isn't two or more whole records.
pub fn unspace_table(file: &mut [u8]) -> u64 {
    unspace(file, &TABLE)
}

/// The same for a point file.
pub fn unspace_points(file: &mut [u8]) -> u64 {
    unspace(file, &POINTS)
}

fn unspace(file: &mut [u8], rules: &FileRules) -> u64 {
    let whole = file.len().is_multiple_of(rules.record);
    if !whole || file.len() < FEWEST_RECORDS * rules.record {
        return 0;
    }
    let trailer = file.len() - rules.record;
    let header = rewrite(&mut file[rules.identifier.clone()], 0);
    let trailer = rewrite(&mut file[trailer..][rules.identifier.clone()], 255);
    u64::from(header) + u64::from(trailer)
}

/// Whether an identifier was spaces throughout; then it has this byte.
fn rewrite(identifier: &mut [u8], byte: u8) -> bool {
    let spaces = is_all(identifier, b' ');
    if spaces {
        identifier.fill(byte);
    }
    spaces
}
