//! Rows that are written and read back print the labels of their views, but for
//! the one case in which the concatenation mark counts.

use paper::csv::{check, label, labels, main_row, row, rows};
use paper::make::{main_set, pair, whole_view, Pair, Rng, View};
use paper::{mainfile, Refusal};

/// Whether a label needs the concatenation mark, for which a row has no field.
fn needs_mark(view: &View) -> bool {
    view.concatenation == b'Y'
        && view.sub_building > 0
        && view.building_number > 0
        && view.building == 0
}

type Answer = (Result<usize, Refusal>, Vec<u8>);

fn in_room(room: usize, ask: impl FnOnce(&mut [u8]) -> Result<usize, Refusal>) -> Answer {
    let mut out = vec![0xA5; room];
    let answer = ask(&mut out);
    (answer, out)
}

/// Compares the label of a view with that of its row, in buffers around it.
/// Whether there was such a row, and whether both labels were the same.
fn compare(
    write: impl FnOnce(&mut [u8]) -> Result<usize, Refusal>,
    print: impl Fn(&mut [u8]) -> Result<usize, Refusal>,
) -> Option<bool> {
    let (answer, mut csv) = in_room(499, write);
    csv.truncate(answer.ok()?);
    assert_eq!(check(&csv), Ok(1), "{}", csv.escape_ascii());
    let length = print(&mut [0; 499]).expect("a label");
    let rooms = [0, length - 1, length, length + 1, 499];
    Some(
        rooms.into_iter().all(|room| {
            in_room(room, |out| print(out)) == in_room(room, |out| label(&csv, 1, out))
        }),
    )
}

#[test]
fn a_row_read_back_prints_the_label_of_its_view() {
    let mut same = [0; 2];
    for seed in 0..500 {
        let Pair {
            table,
            points,
            views,
            ..
        } = &pair(&mut Rng::new(seed), 40);
        for (number, view) in (1..).zip(views) {
            let read_back = compare(
                |out| row(table, points, number, out),
                |out| paper::label(table, points, number, out),
            );
            if let Some(read_back) = read_back {
                assert_eq!(read_back, !needs_mark(view), "{view:?}");
                same[usize::from(read_back)] += 1;
            }
        }
    }
    assert!(same[0] > 50 && same[1] > 1_000, "{same:?}");
}

#[test]
fn the_same_of_a_set() {
    let mut same = [0; 2];
    for seed in 0..300 {
        let made = main_set(&mut Rng::new(seed), 20);
        for (number, address) in (1..).zip(&made.addresses) {
            let read_back = compare(
                |out| main_row(made.set(), number, out),
                |out| mainfile::label(made.set(), number, out),
            );
            if let Some(read_back) = read_back {
                assert_eq!(read_back, !needs_mark(address), "{address:?}");
                same[usize::from(read_back)] += 1;
            }
        }
    }
    assert!(same[0] > 30 && same[1] > 500, "{same:?}");
}

/// docs/CSV.md's example.
#[test]
fn the_one_case_in_which_they_differ() {
    let (mut rows, view) = whole_view();
    rows[6].texts[0] = "A".to_string();
    let view = View {
        building_number: 12,
        building: 0,
        dependent_thoroughfare: 0,
        dependent_descriptor: 0,
        concatenation: b'Y',
        ..view
    };
    let Pair { table, points, .. } = &Pair::new(rows, vec![view]);
    let text =
        |(answer, out): Answer| String::from_utf8_lossy(&out[..answer.expect("text")]).into_owned();
    let written = text(in_room(499, |out| row(table, points, 1, out)));
    assert_eq!(written, "AB1 9ZZ,HOLT,,,HIGH STREET,,12,,A,,,,,S, ,1A\r\n");
    let from_files = text(in_room(499, |out| paper::label(table, points, 1, out)));
    assert_eq!(from_files, "12A HIGH STREET\nHOLT\nAB1 9ZZ\n");
    let from_row = text(in_room(499, |out| label(written.as_bytes(), 1, out)));
    assert_eq!(from_row, "A\n12 HIGH STREET\nHOLT\nAB1 9ZZ\n");
}

/// A run of rows is a file of which a run gives the labels of the views.
#[test]
fn a_run_of_rows_read_back() {
    let mut runs = 0;
    for seed in 0..300 {
        let made = pair(&mut Rng::new(seed), 24);
        let views = made.views.into_iter().map(|view| View {
            concatenation: b' ',
            ..view
        });
        let Pair {
            table,
            points,
            views,
            ..
        } = &Pair::new(made.rows, views.collect());
        let mut csv = vec![0; 499 * views.len()];
        for first in 1..=views.len() as u64 {
            let run = rows(table, points, first, u64::MAX, &mut csv).expect("files");
            let csv = &csv[..run.bytes];
            assert_eq!(check(csv), Ok(run.labels as usize));
            let room = 499 * run.labels as usize;
            let (mut back, mut straight) = (vec![0; room], vec![0; room]);
            let count = run.labels;
            let from_rows = labels(csv, 1, count, &mut back).expect("a file");
            let from_files =
                paper::labels(table, points, first, count, &mut straight).expect("files");
            assert_eq!(from_rows, from_files);
            assert!(back == straight);
            runs += usize::from(count > 1);
        }
    }
    assert!(runs > 100, "{runs}");
}
