//! The plain version answers as the library does, on rows and on files of them,
//! good and damaged.

use crate::plain;
use crate::same::same_call;
use paper::make::{csv_file, csv_rows, damaged_csv, pair, scratch, Pair, Rng};
use ttw::calls;

const ROOMS: [usize; 5] = [0, 40, 499, 519, 9_000];

#[test]
fn rows_as_the_library() {
    for seed in 0..60 {
        let rng = &mut Rng::new(seed);
        let made = pair(rng, 40);
        let made = if rng.one_in(2) { made.carried() } else { made };
        let Pair {
            table,
            points,
            views,
            ..
        } = &made;
        for view in 0..views.len() as u64 + 2 {
            for room in ROOMS {
                same_call!(view, room, |out, _| csv_row(table, points, view, out));
                same_call!(view, room, |out, bytes| csv_rows(
                    table, points, view, 3, out, bytes
                ));
            }
        }
    }
}

fn same_answers(csv: &[u8], rows: u64) {
    assert_eq!(calls::csv(csv), plain::csv(csv), "{}", csv.escape_ascii());
    for row in 0..rows + 2 {
        for room in ROOMS {
            same_call!(row, room, |out, _| csv_label(csv, row, out));
            same_call!(row, room, |out, bytes| csv_labels(csv, row, 3, out, bytes));
            same_call!(row, room, |out, bytes| csv_list(csv, row, 3, out, bytes));
        }
    }
}

#[test]
fn as_the_library_on_good_files() {
    for seed in 0..60 {
        let rng = &mut Rng::new(seed);
        let rows = rng.below(12);
        same_answers(&csv_file(&csv_rows(rng, rows)), rows as u64);
    }
}

#[test]
fn as_the_library_on_damaged_files() {
    let mut rng = Rng::new(17);
    for damaged in damaged_csv(&mut rng) {
        same_answers(&damaged.csv, 1);
    }
    for _ in 0..2_000 {
        let mut csv = csv_file(&csv_rows(&mut rng, 2));
        scratch(&mut rng, &mut csv);
        same_answers(&csv, 1);
    }
}
