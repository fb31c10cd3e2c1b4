//! Document 02, No. 8: CSV PAF, as the guide's chapter 20 lays it out. A row is
//! sixteen fields with commas between them, ended by CR LF; nothing is quoted.
//! What a view says is written as a row (`write`), and a file of rows is read and
//! printed as labels (`read`).

mod read;
mod write;

pub use read::{check, label, labels, list};
pub use write::{main_row, main_rows, row, rows};

/// How many fields a row has.
const FIELDS: usize = 16;

/// Ends a row.
const ROW_END: &[u8] = b"\r\n";

/// Places of fields, counted from 0 in the guide's order.
const POSTCODE: usize = 0;
const POST_TOWN: usize = 1;
const DEPENDENT_LOCALITY: usize = 2;
const DOUBLE_DEPENDENT_LOCALITY: usize = 3;
const THOROUGHFARE: usize = 4;
const DEPENDENT_THOROUGHFARE: usize = 5;
const BUILDING_NUMBER: usize = 6;
const BUILDING_NAME: usize = 7;
const SUB_BUILDING_NAME: usize = 8;
const PO_BOX: usize = 9;
const DEPARTMENT: usize = 10;
const ORGANISATION: usize = 11;
const UDPRN: usize = 12;
const POSTCODE_TYPE: usize = 13;
const INDICATOR: usize = 14;
const SUFFIX: usize = 15;

/// The most bytes of each field.
const MOST: [usize; FIELDS] = [8, 30, 35, 35, 80, 80, 4, 50, 30, 6, 60, 60, 8, 1, 1, 2];

/// Whether the guide can carry a field: it isn't longer than it allows, and has
/// no double quote, since nothing is quoted. A comma would end it.
fn fits(place: usize, field: &[u8]) -> bool {
    field.len() <= MOST[place] && !field.iter().any(|byte| b",\"".contains(byte))
}
