//! The guide's chapter 5: its sample record with the texts of its Table 35.

use paper::mainfile::{build, label};
use paper::make::{main_file_of, Organisation, TableRow};
use paper::pack_label;

/// The record as the guide prints it.
const PRINTED: &str =
    "G720UP18181822039258000002130001000000000000000000521600676849000101899785S2BY";

/// The same with what the printing lost, field by field: a space in the outward
/// code, one for the concatenation, six for the PO box, and two zeros of those
/// before 5216.
const FIELDS: [&str; 18] = [
    "G72 ", "0UP", "18181822", "039258", "00000213", "0001", "00000000", "0000", "0000",
    "00005216", "00676849", "0001", "01899785", "S", " ", "2B", "Y", "      ",
];

const LABEL: &str = "\
SOUTH LANARKSHIRE COUNCIL
HEAD START
UNIT 1
BLOCK 3
THIRD ROAD
BLANTYRE INDUSTRIAL ESTATE
BLANTYRE
GLASGOW
G72 0UP
";

fn files() -> [Vec<u8>; 7] {
    let town = TableRow::locality(39_258, "GLASGOW", "BLANTYRE", "BLANTYRE INDUSTRIAL ESTATE");
    let council = Organisation::new(b'S', 1_899_785, "SOUTH LANARKSHIRE COUNCIL", "HEAD START");
    [
        main_file_of(1, &[town.main_record()]),
        main_file_of(2, &[TableRow::thoroughfare(213, "THIRD").main_record()]),
        main_file_of(3, &[TableRow::descriptor(1, "ROAD").main_record()]),
        main_file_of(4, &[TableRow::building(5_216, "BLOCK 3").main_record()]),
        main_file_of(
            5,
            &[TableRow::sub_building(676_849, "UNIT 1").main_record()],
        ),
        main_file_of(6, &[council.record()]),
        main_file_of(7, &[FIELDS.concat().into_bytes()]),
    ]
}

#[test]
fn the_printed_record_lost_eight_spaces_and_two_zeros() {
    let restored = FIELDS.concat();
    assert_eq!((PRINTED.len(), restored.len()), (78, 88));
    let without_spaces = restored.replace(' ', "");
    assert_eq!(without_spaces.len(), 80);
    let at = without_spaces.find("5216").expect("the building's key");
    let without_zeros = [&without_spaces[..at - 2], &without_spaces[at..]].concat();
    assert_eq!(without_zeros, PRINTED);
}

#[test]
fn the_restored_record_prints_table_35() {
    let files = files();
    let set = files.each_ref().map(Vec::as_slice);
    let mut out = [0; 499];
    let written = label(set, 1, &mut out).expect("a label");
    assert_eq!(String::from_utf8_lossy(&out[..written]), LABEL);
    let mut pack = [0; 400];
    let length = build(set, b"G72 ", &mut pack).expect("a pack");
    let mut packed = [0; 499];
    assert_eq!(pack_label(&pack[..length], 1, &mut packed), Ok(written));
    assert_eq!(packed, out);
}
