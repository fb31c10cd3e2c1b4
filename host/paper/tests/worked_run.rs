//! Document 01's run, made from its words, and its pack.

use paper::make::{padded, worked_pack, worked_pair, Pair, BUILT};
use paper::{build, label, label_of, open, pack_label, pack_suffix, report, sector};

const PRINTED: &str = "\
pair 7 4 2
view 1 I
ATTIC FLAT
110-114 QUARRY LANE
HARTWELL BAY
AB1 9ZZ
view 2 D
refused 9 6
";

/// A record as its fields in order, padded to its width.
fn record(fields: &[&str], width: usize) -> Vec<u8> {
    padded(&fields.concat(), width)
}

/// The identifier's byte, its width, and the text behind it.
fn frame(byte: u8, identifier: usize, text: &str, width: usize) -> Vec<u8> {
    let mut record = vec![byte; identifier];
    record.extend(padded(text, width - identifier));
    record
}

/// The table file, byte by byte from document 01's layout.
fn table() -> Vec<u8> {
    let undated = "00000000000000";
    let filler = " ".repeat(45);
    [
        frame(0, 9, "CHANGES1Y11M09", 169),
        record(
            &["1", "00000001", undated, " ", &filler, "HARTWELL BAY"],
            169,
        ),
        record(&["2", "00000007", undated, " ", "QUARRY"], 169),
        record(&["3", "00000003", undated, " ", "LANE"], 169),
        record(&["4", "00000009", undated, " ", "110-114"], 169),
        record(&["5", "00000004", undated, " ", "ATTIC FLAT"], 169),
        frame(255, 9, "00000007", 169),
    ]
    .concat()
}

fn view(date: &str, letter: &str, building: &str) -> Vec<u8> {
    record(
        &[
            date, "101501", "AB1 ", "9ZZ", "1A", "S", "00000001", "00000000", letter, "1",
            "00000001", "00000007", "00000003", "00000000", "00000000", "0000", building,
            "00000004", "0001", " ", "      ", " ", "01", "       ",
        ],
        168,
    )
}

/// The point file, byte by byte from document 01's layout.
fn points() -> Vec<u8> {
    [
        frame(0, 14, "CHANGES2Y11M09", 168),
        view("20110901", "I", "00000009"),
        view("20110902", "D", "00000010"),
        frame(255, 14, "00000004", 168),
    ]
    .concat()
}

fn pack() -> Vec<u8> {
    let mut pack = vec![0; 171];
    assert_eq!(build(&table(), &points(), b"AB1 ", &mut pack), Ok(171));
    pack
}

fn number(bytes: &[u8]) -> u32 {
    u32::from_be_bytes(bytes.try_into().expect("four bytes"))
}

#[test]
fn the_makers_write_the_same_files() {
    let Pair {
        table: made_table,
        points: made_points,
        ..
    } = worked_pair();
    assert_eq!(made_table, table());
    assert_eq!(made_points, points());
}

#[test]
fn the_program_prints_document_01s_lines() {
    let text = report(Some(&table()), Some(&points()));
    assert_eq!(String::from_utf8_lossy(&text), PRINTED);
}

#[test]
fn the_first_label_stands_in_a_fresh_buffer() {
    let mut buffer = [0; 499];
    let expected = b"ATTIC FLAT\n110-114 QUARRY LANE\nHARTWELL BAY\nAB1 9ZZ\n";
    let written = label(&table(), &points(), 1, &mut buffer);
    assert_eq!(written, Ok(expected.len()));
    assert_eq!(&buffer[..expected.len()], expected);
    assert!(buffer[expected.len()..].iter().all(|byte| *byte == 0));
}

/// In the edition that is built, so that the point has a suffix and the trailer
/// has counts.
#[test]
fn the_pack_has_the_bytes_that_document_01_says() {
    let expected = worked_pack(BUILT);
    assert_eq!(expected.len(), 51 + 59 + 61);
    assert_eq!(pack(), expected);
}

#[test]
fn the_pack_has_the_counts_and_offsets_that_document_01_says() {
    let pack = pack();
    let trailer = &pack[171 - 61..];
    assert_eq!(number(&trailer[0..4]), 5);
    assert_eq!(number(&trailer[4..8]), 51);
    assert_eq!(number(&trailer[8..12]), 1);
    assert_eq!(trailer[12..20], *b"AB1 \0\0\0\xab");
    let counts: Vec<u32> = trailer[20..60].chunks(4).map(number).collect();
    assert_eq!(counts, [0, 0, 0, 0, 0, 0, 0, 0, 0, 1]);
    assert_eq!(trailer[60..], [3]);
    let offsets: Vec<u32> = pack[51 + 27..51 + 59].chunks(4).map(number).collect();
    let present: Vec<u32> = offsets
        .into_iter()
        .filter(|offset| *offset != u32::MAX)
        .collect();
    assert_eq!(present, [0, 16, 24, 30, 39]);
}

#[test]
fn the_pack_opens_and_prints_the_first_view() {
    let mut buffer = [0; 499];
    assert_eq!(open(&pack()), Ok(1));
    let written = pack_label(&pack(), 1, &mut buffer).expect("a label");
    assert_eq!(
        Ok(buffer[..written].to_vec()),
        label_of(&table(), &points(), 1)
    );
    assert_eq!(pack_suffix(&pack(), 1), Ok(12_609), "1A");
    assert_eq!(sector(&pack(), 9), Ok(1), "AB1 9");
}
