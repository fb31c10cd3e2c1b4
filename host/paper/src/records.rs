//! Document 01, "Well formed": tests of whole records. Fields are tried in
//! record order; the answer is the byte of the record (1 is the first) at which
//! the first fault stands, 0 where there is none.

use crate::fields::{
    digits_fault, filled_fault, inward_fault, is_blank, outward_fault, suffix_fault, text_fault,
    value,
};
use crate::layout::{
    address, main, point, table, Field, FileRules, MAIN, MAIN_FILES, POINTS, TABLE,
};

/// A field and the test that it has to pass.
type Test = (Field, fn(&[u8]) -> usize);

/// What every table record has in front of its texts.
const TABLE_FRONT: [Test; 5] = [
    (table::TYPE, table_type_fault),
    (table::KEY, table_key_fault),
    (table::DATE, digits_fault),
    (table::TIME, digits_fault),
    (table::LETTER, table_letter_fault),
];

/// The 42 bytes with which every point record begins.
const POINT_FRONT: [Test; 10] = [
    (point::DATE, digits_fault),
    (point::TIME, digits_fault),
    (point::OUTWARD, outward_fault),
    (point::INWARD, inward_fault),
    (point::SUFFIX, suffix_fault),
    (point::POSTCODE_TYPE, postcode_type_fault),
    (point::ADDRESS_KEY, digits_fault),
    (point::ORGANISATION_KEY, digits_fault),
    (point::LETTER, point_letter_fault),
    (point::TYPE, point_type_fault),
];

/// How a view (type 1) goes on; new postcode and filler are not read.
const VIEW_REST: [Test; 13] = [
    (point::LOCALITY, digits_fault),
    (point::THOROUGHFARE, digits_fault),
    (point::DESCRIPTOR, digits_fault),
    (point::DEPENDENT_THOROUGHFARE, digits_fault),
    (point::DEPENDENT_DESCRIPTOR, digits_fault),
    (point::BUILDING_NUMBER, digits_fault),
    (point::BUILDING_NAME, digits_fault),
    (point::SUB_BUILDING_NAME, digits_fault),
    (point::HOUSEHOLDS, digits_fault),
    (point::CONCATENATION, mark_fault),
    (point::PO_BOX, text_fault),
    (point::INDICATOR, mark_fault),
    (point::REASON, digits_fault),
];

/// How a small user record (type 2) goes on: its name isn't blank.
const SMALL_USER_REST: [Test; 2] = [
    (point::ORGANISATION, filled_fault),
    (point::DEPARTMENT, text_fault),
];

/// How a large user record (type 3) goes on: its name may be blank.
const LARGE_USER_REST: [Test; 2] = [
    (point::ORGANISATION, text_fault),
    (point::DEPARTMENT, text_fault),
];

/// The first fault of a table record between header and trailer. A record of
/// another length is at fault at byte 1.
pub fn table_fault(record: &[u8]) -> usize {
    if record.len() != TABLE.record {
        return 1;
    }
    let fault = first_fault(record, &TABLE_FRONT);
    if fault != 0 {
        return fault;
    }
    match record[0] {
        b'1' => locality_fault(record, TABLE_LOCALITY),
        b'2' => first_fault(record, &[(table::THOROUGHFARE, filled_fault)]),
        b'3' => first_fault(record, &[(table::DESCRIPTOR, filled_fault)]),
        b'4' => first_fault(record, &[(table::BUILDING_NAME, filled_fault)]),
        _ => first_fault(record, &[(table::SUB_BUILDING_NAME, filled_fault)]),
    }
}

/// Post town, dependent and double dependent locality.
type LocalityTexts = [Field; 3];

const TABLE_LOCALITY: LocalityTexts = [
    table::POST_TOWN,
    table::DEPENDENT_LOCALITY,
    table::DOUBLE_DEPENDENT_LOCALITY,
];

/// Post town isn't blank; a double dependent locality needs a dependent one,
/// and without one is at fault at its first byte.
fn locality_fault(record: &[u8], [town, dependent, double_dependent]: LocalityTexts) -> usize {
    let alone = is_blank(&record[dependent.clone()]);
    let double_fault: fn(&[u8]) -> usize = if alone { blank_fault } else { text_fault };
    first_fault(
        record,
        &[
            (town, filled_fault),
            (dependent, text_fault),
            (double_dependent, double_fault),
        ],
    )
}

/// The first fault of a point record between header and trailer. A record of
/// another length is at fault at byte 1.
pub fn point_fault(record: &[u8]) -> usize {
    if record.len() != POINTS.record {
        return 1;
    }
    let fault = first_fault(record, &POINT_FRONT);
    if fault != 0 {
        return fault;
    }
    match &record[point::TYPE] {
        b"1" => first_fault(record, &VIEW_REST),
        b"2" => first_fault(record, &SMALL_USER_REST),
        _ => first_fault(record, &LARGE_USER_REST),
    }
}

/// The first fault of a record between header and trailer, for each file of a
/// Mainfile set in order. A record of another length is at fault at byte 1.
pub static MAIN_FAULTS: [fn(&[u8]) -> usize; MAIN_FILES] = [
    |record| main_fault(record, 0, main_locality_fault),
    |record| {
        main_fault(record, 1, |row| {
            named_fault(row, main::KEY, main::THOROUGHFARE)
        })
    },
    |record| {
        main_fault(record, 2, |row| {
            named_fault(row, main::DESCRIPTOR_KEY, main::DESCRIPTOR)
        })
    },
    |record| {
        main_fault(record, 3, |row| {
            named_fault(row, main::KEY, main::BUILDING_NAME)
        })
    },
    |record| {
        main_fault(record, 4, |row| {
            named_fault(row, main::KEY, main::SUB_BUILDING_NAME)
        })
    },
    |record| main_fault(record, 5, organisation_fault),
    |record| main_fault(record, 6, |address| first_fault(address, &ADDRESS)),
];

/// The fault of a record that has the length of its file's records.
fn main_fault(record: &[u8], index: usize, fault: fn(&[u8]) -> usize) -> usize {
    if record.len() == MAIN[index].record {
        fault(record)
    } else {
        1
    }
}

fn main_locality_fault(record: &[u8]) -> usize {
    let fault = first_fault(record, &[(main::LOCALITY_KEY, table_key_fault)]);
    if fault != 0 {
        return fault;
    }
    locality_fault(
        record,
        [
            main::POST_TOWN,
            main::DEPENDENT_LOCALITY,
            main::DOUBLE_DEPENDENT_LOCALITY,
        ],
    )
}

/// A row of a key and a text that isn't blank.
fn named_fault(record: &[u8], key: Field, text: Field) -> usize {
    first_fault(record, &[(key, table_key_fault), (text, filled_fault)])
}

/// An organisation of type S needs a name; one of type L doesn't.
fn organisation_fault(record: &[u8]) -> usize {
    let small = record[main::ORGANISATION_TYPE] == *b"S";
    let name_fault: fn(&[u8]) -> usize = if small { filled_fault } else { text_fault };
    first_fault(
        record,
        &[
            (main::KEY, table_key_fault),
            (main::ORGANISATION_TYPE, postcode_type_fault),
            (main::ORGANISATION, name_fault),
            (main::DEPARTMENT, text_fault),
        ],
    )
}

/// All that an address record has.
const ADDRESS: [Test; 18] = [
    (address::OUTWARD, outward_fault),
    (address::INWARD, inward_fault),
    (address::ADDRESS_KEY, digits_fault),
    (address::LOCALITY, digits_fault),
    (address::THOROUGHFARE, digits_fault),
    (address::DESCRIPTOR, digits_fault),
    (address::DEPENDENT_THOROUGHFARE, digits_fault),
    (address::DEPENDENT_DESCRIPTOR, digits_fault),
    (address::BUILDING_NUMBER, digits_fault),
    (address::BUILDING_NAME, digits_fault),
    (address::SUB_BUILDING_NAME, digits_fault),
    (address::HOUSEHOLDS, digits_fault),
    (address::ORGANISATION_KEY, digits_fault),
    (address::POSTCODE_TYPE, postcode_type_fault),
    (address::CONCATENATION, mark_fault),
    (address::SUFFIX, suffix_fault),
    (address::INDICATOR, mark_fault),
    (address::PO_BOX, text_fault),
];

/// Header identifier: all zero bytes or all spaces; then digits 0, where the
/// file has them, and the file's own name. The edition is not read.
pub(crate) fn is_header(record: &[u8], rules: &FileRules) -> bool {
    let identifier = &record[rules.identifier.clone()];
    (is_all(identifier, 0) || is_all(identifier, b' '))
        && is_all(&record[rules.digits.clone()], b'0')
        && record[rules.file_identifier.clone()] == *rules.name
}

/// Trailer identifier: all 255 or all spaces; then digits 9, where the file has
/// them; the count is the number of records in the file.
pub(crate) fn is_trailer(record: &[u8], rules: &FileRules, records: usize) -> bool {
    let identifier = &record[rules.identifier.clone()];
    let count = &record[rules.count.clone()];
    (is_all(identifier, 255) || is_all(identifier, b' '))
        && is_all(&record[rules.digits.clone()], b'9')
        && digits_fault(count) == 0
        && value(count) == records as u64
}

/// The byte of the record at which the first of these fields' faults stands.
fn first_fault(record: &[u8], tests: &[Test]) -> usize {
    for (field, test) in tests {
        let fault = test(&record[field.clone()]);
        if fault != 0 {
            return field.start + fault;
        }
    }
    0
}

pub(crate) fn is_all(bytes: &[u8], wanted: u8) -> bool {
    bytes.iter().all(|byte| *byte == wanted)
}

/// A field of one byte that has to be one of these.
fn one_of(field: &[u8], allowed: &[u8]) -> usize {
    match field {
        [byte] if allowed.contains(byte) => 0,
        _ => 1,
    }
}

fn table_type_fault(field: &[u8]) -> usize {
    one_of(field, b"12345")
}

fn point_type_fault(field: &[u8]) -> usize {
    one_of(field, b"123")
}

/// Letter: in the table file also space.
fn table_letter_fault(field: &[u8]) -> usize {
    one_of(field, b"BCDI ")
}

fn point_letter_fault(field: &[u8]) -> usize {
    one_of(field, b"BCDI")
}

/// Postcode type S or L.
pub(crate) fn postcode_type_fault(field: &[u8]) -> usize {
    one_of(field, b"SL")
}

/// Concatenation and indicator: Y or space.
pub(crate) fn mark_fault(field: &[u8]) -> usize {
    one_of(field, b"Y ")
}

/// Table key: digits, and not zero; zero counts as byte 1.
fn table_key_fault(field: &[u8]) -> usize {
    if is_all(field, b'0') {
        1
    } else {
        digits_fault(field)
    }
}

/// A text that has to be blank; any other counts as byte 1.
fn blank_fault(field: &[u8]) -> usize {
    usize::from(!is_blank(field))
}
