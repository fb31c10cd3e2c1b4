//! Labels asked of accepted CSV files, one by one, in runs and listed.

use paper::make::{csv_file, csv_rows, full_csv_row, CsvRow, Rng};
use std::fs;
use std::path::Path;
use trials::around::Around;
use trials::csv::{ask, check, label, labels, list};
use trials::rooms::{label_rooms, refusal};
use trials::runs::Asked;
use ttw::calls;

/// Room for any label, and for any item.
const LABEL: usize = 499;
const ITEM: usize = 512;

/// A random file of up to so many rows, and how many it has.
fn file(rng: &mut Rng, most: usize) -> (Vec<u8>, u64) {
    let rows = rng.below(most + 1);
    (csv_file(&csv_rows(rng, rows)), rows as u64)
}

#[test]
fn every_row_of_random_files() {
    let mut rng = Rng::new(811);
    let mut reached = [0usize; 16];
    for _ in 0..400 {
        let (csv, rows) = file(&mut rng, 12);
        assert_eq!(check(&csv), rows);
        for row in (0..=rows + 1).chain([1 << 32, (1 << 32) + 1, u64::MAX]) {
            let answer = label_rooms(|room| label(&csv, row, room));
            reached[refusal(answer) as usize] += 1;
        }
    }
    for number in [0, 7, 8] {
        assert!(reached[number] > 100, "{number}: {reached:?}");
    }
}

#[test]
fn every_run_and_every_listing_of_random_files() {
    let mut rng = Rng::new(813);
    let (mut runs, mut lists) = (Around::new(LABEL), Around::new(ITEM));
    for _ in 0..50 {
        let (csv, rows) = file(&mut rng, 9);
        runs.ask(&mut rng, rows, |asked| labels(&csv, asked));
        lists.ask(&mut rng, rows, |asked| list(&csv, asked));
    }
    runs.reached(&[0, 7, 8, 10]);
    lists.reached(&[0, 7, 10]);
}

#[test]
fn buffers_of_every_length() {
    let csv = csv_file(&csv_rows(&mut Rng::new(815), 12));
    for room in 0..1_200 {
        labels(&csv, Asked::new(1, 12, room));
        list(&csv, Asked::new(1, 12, room));
        label(&csv, 1, room);
    }
}

/// The row whose label is the longest that a row has, and an item of a listing with it.
#[test]
fn the_longest_label() {
    let full = full_csv_row().bytes();
    assert_eq!(label_rooms(|room| label(&full, 1, room)), 497);
    for room in 500..=505 {
        let answer = list(&full, Asked::new(1, 1, room));
        assert_eq!(refusal(answer), if room < 503 { 10 } else { 0 });
    }
}

/// A row of postcode, post town, type and suffix, with these fields beside.
fn row_of(fields: &[(usize, &[u8])]) -> CsvRow {
    let empty = CsvRow(std::array::from_fn(|_| Vec::new()));
    let plain: [(usize, &[u8]); 4] = [(1, b"AB1 9ZZ"), (2, b"HOLT"), (14, b"S"), (16, b"1A")];
    let all = plain.iter().chain(fields);
    all.fold(empty, |row, (field, text)| row.with(*field, text))
}

/// Every combination of fields that are empty, blank, numeric-like or not.
#[test]
fn every_combination_of_fields() {
    let texts: [&[u8]; 4] = [b"", b"  ", b"12A", b"ROSE COTTAGE "];
    let numbers: [&[u8]; 4] = [b"", b"0000", b"7", b"0012"];
    let optional: [&[u8]; 2] = [b"", b"KILN COURT"];
    let mut reached = [0usize; 16];
    for number in numbers {
        for building in texts {
            for sub_building in texts {
                for street in optional {
                    for dependent in optional {
                        let csv = row_of(&[
                            (5, street),
                            (6, dependent),
                            (7, number),
                            (8, building),
                            (9, sub_building),
                        ]);
                        let csv = csv.bytes();
                        let answer = label_rooms(|room| label(&csv, 1, room));
                        reached[refusal(answer) as usize] += 1;
                        list(&csv, Asked::new(1, 1, ITEM));
                    }
                }
            }
        }
    }
    assert!(reached[0] > 100 && reached[8] > 50, "{reached:?}");
    assert_eq!(reached[0] + reached[8], 256);
}

/// The file in `samples/rows.csv` has the labels that stand beside it.
#[test]
fn the_sample() {
    let samples = Path::new(env!("CARGO_MANIFEST_DIR")).join("../../samples");
    let csv = fs::read(samples.join("rows.csv")).expect("rows.csv");
    let expected = fs::read(samples.join("rows-labels.txt")).expect("rows-labels.txt");
    assert_eq!(ask(&csv, 7), 41);
    let mut out = vec![0; 41 * ITEM];
    let mut bytes = 0;
    assert_eq!(calls::csv_list(&csv, 1, 41, &mut out, &mut bytes), 41);
    assert!(out[..bytes as usize] == expected, "samples/rows-labels.txt");
}

#[test]
fn an_empty_file() {
    assert_eq!(ask(b"", 0), 0);
    assert_eq!(ask(b"", 1), 0);
    assert_eq!(label(b"", 1, LABEL), 7 << 56);
}

/// The second detail has 20 bits; the bytes tell all.
#[test]
fn more_labels_than_the_second_detail_holds() {
    let rows = (1 << 20) + 3;
    let one = row_of(&[]).bytes();
    let csv = one.repeat(rows as usize);
    assert_eq!(calls::csv(&csv), rows);
    let label = b"HOLT\nAB1 9ZZ\n";
    let mut out = vec![0; label.len() * (rows as usize + 1)];
    let mut bytes = 0;
    let answer = calls::csv_labels(&csv, 1, u64::MAX, &mut out, &mut bytes);
    assert_eq!(answer, 7 << 56 | 3 << 32);
    assert_eq!(bytes, label.len() as u64 * rows);
    let written = &out[..bytes as usize];
    assert!(written.chunks(label.len()).all(|chunk| chunk == label));
    let answer = calls::csv_labels(&csv, 1, rows, &mut out, &mut bytes);
    assert_eq!(answer, rows);
    let answer = calls::csv_list(&csv, rows, 2, &mut out, &mut bytes);
    assert_eq!(answer, 7 << 56 | 1 << 32);
    assert_eq!(out[..bytes as usize], *b"row 1048579\nHOLT\nAB1 9ZZ\n");
    let mut damaged = csv;
    damaged.pop();
    assert_eq!(calls::csv(&damaged), 14 << 56 | 16 << 32 | rows);
}
