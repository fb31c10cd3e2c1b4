//! The plain version answers as the library does, on good files and damaged
//! ones.

use crate::plain;
use crate::same::same_call;
use paper::make::{damaged_points, damaged_table, pair, scratch, Pair, Place, Rng};
use ttw::calls;

/// How many random pairs, and how many files of each kind of damage.
const PAIRS: u64 = 60;
const DAMAGED: u64 = 20;

fn same_checks(table: &[u8], points: &[u8]) {
    assert_eq!(calls::table(table), plain::table(table));
    assert_eq!(calls::points(points), plain::points(points));
    assert_eq!(calls::views(points), plain::views(points));
    for room in [0, 8, 15, 4_000] {
        same_call!("all", room, |out, _| codes(points, out));
    }
    same_rewriting(table, calls::unspace_table, plain::unspace_table);
    same_rewriting(points, calls::unspace_points, plain::unspace_points);
}

fn same_rewriting(file: &[u8], library: fn(&mut [u8]) -> u64, plain: fn(&mut [u8]) -> u64) {
    let (mut ours, mut theirs) = (file.to_vec(), file.to_vec());
    assert_eq!(library(&mut ours), plain(&mut theirs));
    assert!(ours == theirs, "the files differ");
}

fn same_views(table: &[u8], points: &[u8], count: u64) {
    for view in 0..count + 2 {
        assert_eq!(calls::letter(points, view), plain::letter(points, view));
        for room in [0, 40, 499, 519, 9_000] {
            same_call!(view, room, |out, _| label(table, points, view, out));
            same_call!(view, room, |out, bytes| labels(
                table, points, view, 3, out, bytes
            ));
            same_call!(view, room, |out, bytes| list(
                table, points, view, 3, out, bytes
            ));
        }
    }
}

fn same_in_code(table: &[u8], points: &[u8], code: &[u8]) {
    assert_eq!(calls::live(points, code), plain::live(points, code));
    for k in 0..4 {
        same_call!(k, 499, |out, _| code_label(table, points, code, k, out));
        same_call!(k, 2_000, |out, bytes| code_labels(
            table, points, code, k, 9, out, bytes
        ));
        same_call!(k, 2_000, |out, bytes| code_list(
            table, points, code, k, 9, out, bytes
        ));
    }
    for room in [0, 61, 20_000] {
        same_call!("all", room, |out, _| build(table, points, code, out));
    }
}

fn same_answers(pair: &Pair) {
    same_checks(&pair.table, &pair.points);
    same_views(&pair.table, &pair.points, pair.views.len() as u64);
    for code in [&b"AB1 "[..], b"QA1 ", b"AB1"] {
        same_in_code(&pair.table, &pair.points, code);
    }
    for view in &pair.views {
        let code = format!("{:<4}", view.outward);
        same_in_code(&pair.table, &pair.points, code.as_bytes());
    }
}

#[test]
fn as_the_library_on_good_files() {
    for seed in 0..PAIRS {
        same_answers(&pair(&mut Rng::new(seed), 40));
    }
}

#[test]
fn as_the_library_on_damaged_files() {
    let mut rng = Rng::new(15);
    for number in 1..=6 {
        for place in Place::ALL {
            for _ in 0..DAMAGED {
                let table = damaged_table(&mut rng, number, place);
                let points = damaged_points(&mut rng, number, place);
                let file = |damaged: Option<paper::make::Damaged>| {
                    damaged.map_or(Vec::new(), |damaged| damaged.file)
                };
                same_checks(&file(table), &file(points));
            }
        }
    }
}

#[test]
fn as_the_library_on_scratched_files() {
    let mut rng = Rng::new(16);
    for _ in 0..PAIRS * DAMAGED {
        let Pair {
            mut table,
            mut points,
            ..
        } = pair(&mut rng, 12);
        scratch(&mut rng, &mut table);
        scratch(&mut rng, &mut points);
        same_checks(&table, &points);
    }
}
