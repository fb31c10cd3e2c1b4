//! Files with any damage: every single byte, a few bytes, and bytes that were
//! never a file.

use crate::{refusal_number, Kind, KINDS, POINTS, TABLE};
use paper::make::{pair, point_file, scratch, table_file, Rng, TableRow, View};
use trials::agree;

/// A table file of 7 records: one of each type.
fn small_table() -> Vec<u8> {
    table_file(&[
        TableRow::locality(1, "HARTWELL BAY", "DYCE", "OLD QUAY"),
        TableRow::thoroughfare(7, "QUARRY"),
        TableRow::descriptor(3, "LANE"),
        TableRow::building(9, "110-114"),
        TableRow::sub_building(4, "ATTIC FLAT"),
    ])
}

/// A point file of 7 records: a view alone, a small and a large user.
fn small_points() -> Vec<u8> {
    let view = |date| View {
        date,
        ..View::default()
    };
    point_file(&[
        view(20_110_901),
        view(20_110_902).small_user(7, "LEDA", "STORES"),
        view(20_110_903).large_user("LEDA", ""),
    ])
}

/// Changes every byte of an accepted file of 7 records to every value, one at a
/// time. Answers how often the file was taken (0) and how often each refusal
/// was given.
fn change_every_byte(kind: &Kind, accepted: &[u8]) -> [usize; 7] {
    kind.assert_taken(accepted, 7);
    let mut file = accepted.to_vec();
    let mut given = [0; 7];
    for at in 0..file.len() {
        for value in 0..=255 {
            file[at] = value;
            given[refusal_number((kind.ask)(&file))] += 1;
        }
        file[at] = accepted[at];
    }
    println!("taken, then refusals 1 to 6: {given:?}");
    assert_eq!(given.iter().sum::<usize>(), 7 * kind.record * 256);
    given
}

#[test]
fn every_byte_of_a_table_file_changed_to_every_value() {
    let given = change_every_byte(&TABLE, &small_table());
    assert!([0, 2, 3, 4, 5].iter().all(|number| given[*number] > 0));
    assert_eq!((given[1], given[6]), (0, 0));
}

#[test]
fn every_byte_of_a_point_file_changed_to_every_value() {
    let given = change_every_byte(&POINTS, &small_points());
    assert!([0, 2, 3, 4, 5, 6].iter().all(|number| given[*number] > 0));
    assert_eq!(given[1], 0);
}

/// Scratches files of at most so many records. Answers, for each kind, how
/// often a file was taken (0) and how often each refusal was given.
fn scratch_pairs(files: u64, most_records: usize) -> [[usize; 7]; 2] {
    let mut given = [[0; 7]; 2];
    for seed in 0..files {
        let rng = &mut Rng::new(seed);
        let mut pair = pair(rng, most_records);
        scratch(rng, &mut pair.table);
        scratch(rng, &mut pair.points);
        given[0][refusal_number((TABLE.ask)(&pair.table))] += 1;
        given[1][refusal_number((POINTS.ask)(&pair.points))] += 1;
        for number in 0..pair.views.len() as u64 + 2 {
            agree::letter(&pair.points, number);
        }
        for view in &pair.views {
            agree::live(&pair.points, format!("{:4}", view.outward).as_bytes());
        }
    }
    println!("taken, then refusals 1 to 6: {given:?}");
    given
}

#[test]
fn small_files_with_a_few_bytes_damaged() {
    let [table, points] = scratch_pairs(8_000, 12);
    assert!(table[..=5].iter().all(|count| *count > 10));
    assert!(points.iter().all(|count| *count > 10));
}

#[test]
fn larger_files_with_a_few_bytes_damaged() {
    let [table, points] = scratch_pairs(500, 80);
    assert!(table[0] > 100 && table[4] > 100);
    assert!(points[0] > 100 && points[4] > 100);
}

/// Lengths around so many records of either kind.
fn lengths_around(records: usize) -> impl Iterator<Item = usize> {
    KINDS.into_iter().flat_map(move |kind| {
        let whole = records * kind.record;
        whole.saturating_sub(2)..=whole + 2
    })
}

#[test]
fn bytes_that_were_never_a_file() {
    for records in 0..=8 {
        for length in lengths_around(records) {
            for seed in 0..40 {
                let rng = &mut Rng::new(seed);
                let garbage: Vec<u8> = (0..length).map(|_| rng.byte()).collect();
                let code: Vec<u8> = (0..seed % 9).map(|_| rng.byte()).collect();
                (TABLE.ask)(&garbage);
                (POINTS.ask)(&garbage);
                agree::letter(&garbage, rng.word());
                agree::live(&garbage, &code);
            }
        }
    }
}

/// Telling bytes between a header and a trailer that are right.
#[test]
fn any_bytes_in_a_right_frame() {
    let alphabet = b"0123459 ABCDISLYZaz\0\xff";
    for seed in 0..4_000 {
        let rng = &mut Rng::new(seed);
        for (kind, mut file) in KINDS.iter().zip([small_table(), small_points()]) {
            let inner = kind.record..6 * kind.record;
            let start = inner.start + rng.below(inner.len());
            let end = (start + rng.below(kind.record)).min(inner.end);
            for byte in &mut file[start..end] {
                *byte = *rng.pick(alphabet);
            }
            (kind.ask)(&file);
        }
    }
}
