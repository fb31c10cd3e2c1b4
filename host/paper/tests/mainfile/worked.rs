//! A small set, written byte by byte from the guide's chapter 5, and what has to
//! come of it.

use paper::mainfile::{
    build, check, code_label, code_labels, code_list, codes, label, labels, list, live, views, Set,
};
use paper::make::{padded, worked_pair, MainSet, Organisation, Pair, View};
use paper::{open, pack_label, pack_suffix, packed_run, sector, Refusal, Run};

/// The seven files.
fn files() -> [Vec<u8>; 7] {
    let locality = format!("000001{}HARTWELL BAY", " ".repeat(45));
    let none = "00000000";
    let home = [
        "AB1 ", "9ZZ", "00000001", "000001", "00000007", "0003", none, "0000", "0000", "00000009",
        "00000004", "0001", none, "S", " ", "1A", " ", "      ",
    ];
    let large = [
        "AB1 ", "9ZZ", "00000002", "000001", none, "0000", none, "0000", "0000", none, none,
        "0001", "00000007", "L", " ", "1A", "Y", "70    ",
    ];
    let small = [
        "AB1 ", "9ZZ", "00000003", "000001", none, "0000", none, "0000", "0000", none, none,
        "0001", "00000005", "S", " ", "1B", "Y", "      ",
    ];
    let numbered = [
        "AB1 ", "9ZZ", "00000004", "000001", none, "0000", none, "0000", "0003", none, none,
        "0001", "00000005", "S", " ", "9Z", "Y", "      ",
    ];
    let elsewhere = [
        "AB10", "1AA", "00000001", "000001", none, "0000", none, "0000", "0000", "00000010", none,
        "0001", none, "S", " ", "1A", "Y", "      ",
    ];
    let addresses = [home, large, small, numbered, elsewhere].map(|fields| fields.concat());
    [
        file(0, 151, "LOCALITY", &[&locality]),
        file(0, 68, "THOROUGH", &["00000007QUARRY"]),
        file(0, 30, "THDESCRI", &["0003LANE"]),
        file(0, 58, "BUILDING", &["00000009110-114"]),
        file(0, 38, "SUBBUILD", &["00000004ATTIC FLAT"]),
        file(0, 153, "ORGANISA", &["00000002L", "00000005SBAY BATTERIES"]),
        file(7, 88, "ADDRESS ", &addresses.each_ref().map(String::as_str)),
    ]
}

/// A file of these records between a header and a trailer.
fn file(identifier: usize, width: usize, name: &str, records: &[&str]) -> Vec<u8> {
    let behind = |text: String| padded(&text, width - identifier);
    let count = records.len() + 2;
    let mut file = vec![0; identifier];
    file.extend(behind(format!("00000000{name}Y11M09")));
    for record in records {
        file.extend(padded(record, width));
    }
    file.extend(vec![255; identifier]);
    file.extend(behind(format!("99999999{count:08}")));
    file
}

fn set(files: &[Vec<u8>; 7]) -> Set<'_> {
    files.each_ref().map(Vec::as_slice)
}

const LISTED: &str = "\
view 1
ATTIC FLAT
110-114 QUARRY LANE
HARTWELL BAY
AB1 9ZZ
view 2
PO BOX 70
HARTWELL BAY
AB1 9ZZ
view 3
BAY BATTERIES
HARTWELL BAY
AB1 9ZZ
view 4
BAY BATTERIES
3 HARTWELL BAY
AB1 9ZZ
view 5
refused 9 6
";

/// The labels of AB1, one behind the other.
fn labelled() -> String {
    let lines = LISTED
        .lines()
        .filter(|line| !line.starts_with(|c: char| c.is_ascii_lowercase()));
    lines.map(|line| format!("{line}\n")).collect()
}

/// The addresses as the makers take them, in any order.
fn addresses() -> Vec<View> {
    let in_town = View {
        locality: 1,
        indicator: b'Y',
        ..View::default()
    };
    let large = View {
        address_key: 2,
        organisation_key: 7,
        postcode_type: b'L',
        po_box: "70".to_string(),
        ..in_town.clone()
    };
    let small = View {
        suffix: "1B".to_string(),
        address_key: 3,
        organisation_key: 5,
        ..in_town.clone()
    };
    let numbered = View {
        suffix: "9Z".to_string(),
        address_key: 4,
        building_number: 3,
        ..small.clone()
    };
    let elsewhere = View {
        outward: "AB10".to_string(),
        inward: "1AA".to_string(),
        building: 10,
        ..in_town
    };
    vec![elsewhere, numbered, small, large]
}

#[test]
fn the_makers_write_the_same_files() {
    let Pair { rows, views, .. } = worked_pair();
    let organisations = vec![
        Organisation::new(b'S', 5, "BAY BATTERIES", ""),
        Organisation::new(b'L', 2, "", ""),
    ];
    let mut addresses = addresses();
    addresses.push(views[0].clone());
    let made = MainSet::new(rows, organisations, addresses);
    for (made, written) in made.files.iter().zip(files()) {
        assert_eq!(*made, written);
    }
}

#[test]
fn the_files_are_counted() {
    let files = files();
    assert_eq!(check(set(&files)), Ok([3, 3, 3, 3, 3, 4, 7]));
    assert_eq!(views(set(&files)), Ok(5));
    assert_eq!(live(&files[6], b"AB1 "), Ok(4));
    assert_eq!(live(&files[6], b"AB10"), Ok(1));
    assert_eq!(live(&files[6], b"AB2 "), Ok(0));
    let mut out = [7; 20];
    assert_eq!(codes(&files[6], &mut out), Ok(2));
    assert_eq!(out, *b"AB1 \0\0\0\x04AB10\0\0\0\x01\x07\x07\x07\x07");
    assert_eq!(codes(&files[6], &mut out[..15]), Err(Refusal::new(10, 16)));
}

#[test]
fn every_view_has_its_label_by_number_and_by_code() {
    let files = files();
    let set = set(&files);
    let mut out = [0; 499];
    let written = label(set, 4, &mut out);
    assert_eq!(written, Ok(14 + 15 + 8));
    assert_eq!(&out[..37], b"BAY BATTERIES\n3 HARTWELL BAY\nAB1 9ZZ\n");
    assert!(out[37..].iter().all(|byte| *byte == 0));
    assert_eq!(label(set, 5, &mut out), Err(Refusal::new(9, 6)));
    assert_eq!(label(set, 6, &mut out), Err(Refusal::new(7, 0)));
    let mut by_code = [0; 499];
    assert_eq!(code_label(set, b"AB1 ", 4, &mut by_code), Ok(37));
    assert_eq!(by_code, out);
    assert_eq!(
        code_label(set, b"AB1 ", 5, &mut out),
        Err(Refusal::new(7, 0))
    );
    assert_eq!(
        code_label(set, b"AB10", 1, &mut out),
        Err(Refusal::new(9, 6))
    );
}

#[test]
fn a_run_stops_before_the_refused_label() {
    let files = files();
    let mut out = [0; 600];
    let expected = labelled();
    let stopped = Run {
        labels: 4,
        bytes: expected.len(),
        stop: Some(Refusal::new(9, 6)),
    };
    assert_eq!(labels(set(&files), 1, 9, &mut out), Ok(stopped));
    assert_eq!(&out[..expected.len()], expected.as_bytes());
    let run = code_labels(set(&files), b"AB1 ", 1, 4, &mut out);
    let whole = Run {
        stop: None,
        ..stopped
    };
    assert_eq!(run, Ok(whole));
    assert_eq!(&out[..expected.len()], expected.as_bytes());
    let mut bytes = 0;
    let told = packed_run(
        code_labels(set(&files), b"AB1 ", 3, 9, &mut out),
        &mut bytes,
    );
    assert_eq!((told, bytes), (7 << 56 | 2 << 32, 35 + 37));
}

#[test]
fn a_listing_goes_on_behind_a_refused_label_and_ends_with_7() {
    let files = files();
    let mut out = [0; 600];
    let whole = Run {
        labels: 5,
        bytes: LISTED.len(),
        stop: None,
    };
    assert_eq!(list(set(&files), 1, 5, &mut out), Ok(whole));
    assert_eq!(&out[..LISTED.len()], LISTED.as_bytes());
    assert!(out[LISTED.len()..].iter().all(|byte| *byte == 0));
    let stop = Some(Refusal::new(7, 0));
    assert_eq!(list(set(&files), 1, 6, &mut out), Ok(Run { stop, ..whole }));
    let last = "view 5\nrefused 9 6\n";
    let only = Run {
        labels: 1,
        bytes: last.len(),
        stop,
    };
    assert_eq!(code_list(set(&files), b"AB10", 1, 2, &mut out), Ok(only));
    assert_eq!(&out[..last.len()], last.as_bytes());
}

#[test]
fn a_listing_stops_with_10_before_what_does_not_fit() {
    let files = files();
    let mut out = [9; 100];
    let second = "view 2\nPO BOX 70\nHARTWELL BAY\nAB1 9ZZ\n".len();
    let first = LISTED.find("view 2").expect("view 2");
    let stopped = Run {
        labels: 1,
        bytes: first,
        stop: Some(Refusal::new(10, second as u64)),
    };
    let room = first + second - 1;
    assert_eq!(list(set(&files), 1, 5, &mut out[..room]), Ok(stopped));
    assert_eq!(out[first..], [9; 100][first..]);
    let refused_too = Run {
        labels: 0,
        bytes: 0,
        stop: Some(Refusal::new(10, 19)),
    };
    assert_eq!(list(set(&files), 5, 1, &mut out[..18]), Ok(refused_too));
}

/// A point of the pack of AB1: suffix and type, keys, number, PO box and offsets.
fn point(kind: &[u8], keys: [u32; 2], number: u16, po_box: &[u8], offsets: [u32; 8]) -> Vec<u8> {
    let mut point = b"AB1 9ZZ".to_vec();
    point.extend(kind);
    point.extend(keys[0].to_be_bytes());
    point.extend(keys[1].to_be_bytes());
    point.extend(number.to_be_bytes());
    point.extend(b" ");
    point.extend(po_box);
    for offset in offsets {
        point.extend(offset.to_be_bytes());
    }
    point
}

/// Five table rows, then three of type 6, two of them the same, four points, the
/// trailer.
fn expected_pack() -> Vec<u8> {
    const NO: u32 = u32::MAX;
    let town = |organisation| [0, NO, NO, NO, NO, NO, NO, organisation];
    let shared = b"\x06\x0dBAY BATTERIES\x00";
    let mut pack = Vec::new();
    pack.extend(b"\x01\x0cHARTWELL BAY\x00\x00");
    pack.extend(b"\x02\x06QUARRY");
    pack.extend(b"\x03\x04LANE");
    pack.extend(b"\x04\x07110-114");
    pack.extend(b"\x05\x0aATTIC FLAT");
    assert_eq!(pack.len(), 51);
    pack.extend(b"\x06\x00\x00");
    pack.extend(shared);
    pack.extend(shared);
    assert_eq!(pack.len(), 86);
    pack.extend(point(
        b"1AS",
        [1, 0],
        0,
        b"      ",
        [0, 16, 24, NO, NO, 30, 39, NO],
    ));
    pack.extend(point(b"1AL", [2, 7], 0, b"70    ", town(51)));
    pack.extend(point(b"1BS", [3, 5], 0, b"      ", town(54)));
    pack.extend(point(b"9ZS", [4, 5], 3, b"      ", town(70)));
    pack.extend(b"\0\0\0\x08\0\0\0\x56\0\0\0\x04AB1 \0\0\x01\x7f");
    pack.extend([0; 36]);
    pack.extend(b"\0\0\0\x04\x03");
    assert_eq!(pack.len(), 86 + 4 * 59 + 61);
    pack
}

#[test]
fn the_pack_has_these_bytes() {
    let files = files();
    let expected = expected_pack();
    let mut pack = [9; 400];
    assert_eq!(build(set(&files), b"AB1 ", &mut pack), Ok(expected.len()));
    assert_eq!(pack[..expected.len()], expected);
    assert!(pack[expected.len()..].iter().all(|byte| *byte == 9));
    let short = &mut pack[..expected.len() - 1];
    let room = Refusal::new(10, expected.len() as u64);
    assert_eq!(build(set(&files), b"AB1 ", short), Err(room));
    assert_eq!(open(&expected), Ok(4));
    let mut printed = Vec::<u8>::new();
    for k in 1..=4 {
        let mut out = [0; 499];
        let written = pack_label(&expected, k, &mut out).expect("a label");
        printed.extend(&out[..written]);
    }
    assert_eq!(printed, labelled().as_bytes());
    let suffixes: Vec<_> = (1..=5).map(|k| pack_suffix(&expected, k)).collect();
    let (of_1a, of_1b, of_9z) = (Ok(0x3141), Ok(0x3142), Ok(0x395a));
    let none = Err(Refusal::new(7, 0));
    assert_eq!(suffixes, [of_1a, of_1a, of_1b, of_9z, none]);
    assert_eq!([8, 9].map(|digit| sector(&expected, digit)), [Ok(0), Ok(4)]);
}

#[test]
fn building_names_the_view_that_is_refused() {
    let files = files();
    let mut pack = [9; 400];
    let refused = Refusal {
        second: 5,
        ..Refusal::new(9, 6)
    };
    assert_eq!(build(set(&files), b"AB10", &mut pack), Err(refused));
    assert_eq!(pack, [9; 400]);
    assert_eq!(build(set(&files), b"AB2 ", &mut pack), Ok(61));
    assert_eq!(&pack[..20], b"\0\0\0\0\0\0\0\0\0\0\0\0AB2 \0\0\0\x3d");
    assert_eq!((&pack[20..60], pack[60]), (&[0; 40][..], 3));
}
