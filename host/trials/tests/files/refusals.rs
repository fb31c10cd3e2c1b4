//! Every refusal of a file, reached on purpose at every place where it can
//! stand, with the record that it names.

use crate::{Kind, POINTS, TABLE};
use paper::make::{
    damaged_points, damaged_table, exact_pair, point_breaks, point_file, table_breaks, table_file,
    Damaged, Place, Rng, TableRow, View,
};

/// Files for each refusal and place.
const ROUNDS: u64 = 100;

/// Makes files for every refusal and place, and fails where one isn't refused
/// so, or where a refusal that can stand at a place was never reached there.
fn reach_every_place(kind: &Kind, highest: u8, make: fn(&mut Rng, u8, Place) -> Option<Damaged>) {
    for number in 1..=highest {
        for place in Place::ALL {
            let mut reached = 0;
            for seed in 0..ROUNDS {
                if let Some(damaged) = make(&mut Rng::new(seed), number, place) {
                    let refusal = damaged.refusal;
                    assert_eq!((refusal.number, refusal.file), (number, kind.file));
                    kind.assert_answer(&damaged.file, Err(refusal));
                    reached += 1;
                }
            }
            println!("refusal {number}, {place:?}: {reached}");
            let possible = Place::of(number).contains(&place);
            assert_eq!(reached > 0, possible, "{number} {place:?}");
        }
    }
}

#[test]
fn every_refusal_of_a_table_file_at_every_place() {
    reach_every_place(&TABLE, 5, damaged_table);
}

#[test]
fn every_refusal_of_a_point_file_at_every_place() {
    reach_every_place(&POINTS, 6, damaged_points);
}

/// The record of that number in a file.
fn record_of<'a>(kind: &Kind, file: &'a mut [u8], number: usize) -> &'a mut [u8] {
    &mut file[(number - 1) * kind.record..number * kind.record]
}

/// Five rows of one type.
fn rows_of(row_type: u8) -> Vec<TableRow> {
    (1..=5)
        .map(|key| match row_type {
            1 => TableRow::locality(key, "HOLT", "PENN", "OLD QUAY"),
            2 => TableRow::thoroughfare(key, "HIGH"),
            3 => TableRow::descriptor(key, "STREET"),
            4 => TableRow::building(key, "THE MANOR"),
            _ => TableRow::sub_building(key, "FLAT 1"),
        })
        .collect()
}

#[test]
fn every_break_of_a_table_record_is_4_at_that_record() {
    let mut broken = 0;
    for row_type in 1..=5 {
        let accepted = table_file(&rows_of(row_type));
        TABLE.assert_taken(&accepted, 7);
        for change in table_breaks(row_type) {
            for number in 2..=6 {
                let mut file = accepted.clone();
                change.apply(record_of(&TABLE, &mut file, number));
                TABLE.assert_malformed(&file, number, change.fault);
                broken += 1;
            }
        }
    }
    println!("{broken} broken records");
    assert!(broken > 500);
}

/// Three views that are made alike, with their followers.
fn views_like(view: &View) -> Vec<View> {
    (1..=3)
        .map(|address_key| View {
            address_key,
            ..view.clone()
        })
        .collect()
}

#[test]
fn every_break_of_a_view_without_follower_is_4_at_that_record() {
    let accepted = point_file(&views_like(&View::default()));
    POINTS.assert_taken(&accepted, 5);
    for change in point_breaks(1) {
        for number in 2..=4 {
            let mut file = accepted.clone();
            change.apply(record_of(&POINTS, &mut file, number));
            POINTS.assert_malformed(&file, number, change.fault);
        }
    }
}

/// A follower's first 42 bytes are judged with its owner, before the follower
/// is tested itself.
#[test]
fn every_break_of_a_view_with_follower_and_of_the_follower() {
    let mut reached = [0; 7];
    let small = View::default().small_user(7, "LEDA", "STORES");
    let large = View::default().large_user("LEDA", "STORES");
    for (view, follower_type) in [(small, 2), (large, 3)] {
        let accepted = point_file(&views_like(&view));
        POINTS.assert_taken(&accepted, 8);
        for number in 2..=7 {
            let is_owner = number % 2 == 0;
            for change in point_breaks(if is_owner { 1 } else { follower_type }) {
                let mut file = accepted.clone();
                change.apply(record_of(&POINTS, &mut file, number));
                if is_owner || change.at >= 42 {
                    POINTS.assert_malformed(&file, number, change.fault);
                    reached[4] += 1;
                } else {
                    POINTS.assert_refused(&file, 6, number - 1);
                    reached[6] += 1;
                }
            }
        }
    }
    println!("refusals 4 and 6: {} and {}", reached[4], reached[6]);
    assert!(reached[4] > 300 && reached[6] > 100);
}

#[test]
fn the_largest_files_name_the_record_at_fault() {
    let pair = exact_pair(&mut Rng::new(5), 20_000, 20_000);
    for number in [2, 3, 9_999, 19_998, 19_999] {
        for (kind, accepted) in [(TABLE, &pair.table), (POINTS, &pair.points)] {
            let mut file = accepted.clone();
            record_of(&kind, &mut file, number)[8] = b'X';
            let follows = kind.file == 2 && record_of(&kind, &mut file, number)[41] != b'1';
            match follows {
                true => kind.assert_refused(&file, 6, number - 1),
                false => kind.assert_malformed(&file, number, 9),
            }
        }
    }
}

#[test]
fn the_largest_table_names_the_record_that_does_not_rise() {
    let pair = exact_pair(&mut Rng::new(5), 20_000, 2);
    for number in [3, 9_999, 19_999] {
        let mut file = pair.table.clone();
        let before = record_of(&TABLE, &mut file, number - 1).to_vec();
        record_of(&TABLE, &mut file, number)[..24].copy_from_slice(&before[..24]);
        let changed_type = before[0] != pair.table[(number - 1) * TABLE.record];
        assert!(!changed_type, "the texts behind the key stay well formed");
        TABLE.assert_refused(&file, 5, number);
    }
}

#[test]
fn refusals_come_in_their_order() {
    let views = views_like(&View::default().small_user(7, "LEDA", ""));
    let mut files = [table_file(&rows_of(1)), point_file(&views)];
    for (kind, file) in [TABLE, POINTS].iter().zip(&mut files) {
        let last = file.len() / kind.record;
        kind.assert_taken(file, last);
        let first = record_of(kind, file, 2).to_vec();
        record_of(kind, file, 4).copy_from_slice(&first);
        kind.assert_refused(file, 5, 4);
        record_of(kind, file, 4)[1] = b' ';
        kind.assert_malformed(file, 4, 2);
        record_of(kind, file, 2)[1] = b':';
        kind.assert_malformed(file, 2, 2);
        record_of(kind, file, last)[kind.identifier + 7] ^= 1;
        kind.assert_refused(file, 3, last);
        record_of(kind, file, 1)[kind.identifier] ^= 1;
        kind.assert_refused(file, 2, 1);
        file.push(b' ');
        kind.assert_refused(file, 1, 0);
    }
}
