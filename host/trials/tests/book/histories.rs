//! Long random histories, event by event.

use crate::{refusal, LENGTH};
use paper::make::{self, damaged_points, exact_pair, history, padded, Pair, Place, Rng, Shape};
use std::collections::BTreeMap;
use trials::book::{count, event, list, live, tidy};
use trials::runs::Asked;

/// Names every view of a month in turn, and views that it has not; counts the answers by their refusals.
fn keep(book: &mut [u8], month: &Pair, told: &mut BTreeMap<u8, u64>) {
    let views = month.views.len() as u64;
    for view in (1..=views).chain([0, views + 1, u64::MAX]) {
        let answer = event(book, &month.points, view);
        *told.entry(refusal(answer)).or_default() += 1;
    }
}

#[test]
fn from_empty_through_many_months() {
    let mut told = BTreeMap::new();
    let mut full = 0;
    for seed in 0..16 {
        let rng = &mut Rng::new(seed);
        let shape = Shape {
            points: *rng.pick(&[6, 60, 290, 400]),
            months: 10,
            events: 70,
        };
        let mut book = vec![0; LENGTH];
        for month in history(rng, shape).months {
            keep(&mut book, &month, &mut told);
            let present = count(&book);
            full += u64::from(present == 256);
            list(&book, &month.table, Asked::new(1, present, 520 * 256));
            if rng.one_in(3) {
                assert_eq!(tidy(&mut book), present);
            }
        }
    }
    println!("{told:?}, full {full}");
    let numbers: Vec<u8> = told.keys().copied().collect();
    assert_eq!(numbers, [0, 7, 17, 18, 19, 20]);
    assert!(told.values().all(|times| *times > 50), "{told:?}");
    assert!(full > 2, "{full}");
}

/// Books whose slots were used in any order, which no history gives so quickly.
#[test]
fn scattered_books_through_a_month() {
    let mut told = BTreeMap::new();
    for seed in 0..60 {
        let rng = &mut Rng::new(seed);
        let shape = Shape {
            points: 300,
            months: 1,
            events: 30,
        };
        let month = &history(rng, shape).months[0];
        let present = *rng.pick(&[0, 1, 2, 100, 255, 256]);
        let mut book = make::book(rng, &month.rows, present);
        keep(&mut book, month, &mut told);
        let present = count(&book);
        assert_eq!(tidy(&mut book), present);
        for view in &month.views {
            live(&book, &padded(&view.outward, 4));
        }
    }
    println!("{told:?}");
    assert!(told.len() >= 6, "{told:?}");
}

/// Every place of a full book removed and used again, from the front, from the end and from the middle.
#[test]
fn each_place_of_a_full_book_is_removed_and_used_again() {
    let view = |address_key, letter| make::View {
        time: address_key,
        address_key,
        letter,
        ..make::View::default()
    };
    let all: Vec<make::View> = (1..=256).map(|key| view(key, b'I')).collect();
    let full = make::tidy_book(&all);
    for key in [1, 2, 3, 100, 128, 254, 255, 256] {
        let mut book = full.clone();
        let views = [view(key, b'D'), view(900_000, b'I'), view(900_001, b'I')];
        let points = make::point_file(&views);
        assert_eq!(event(&mut book, &points, 1), u64::from(key));
        assert_eq!(event(&mut book, &points, 2), 256);
        assert_eq!(refusal(event(&mut book, &points, 3)), 20);
        assert_eq!(refusal(event(&mut book, &points, 1)), 18);
        assert_eq!(tidy(&mut book), 256);
    }
}

#[test]
fn refused_point_files_leave_the_book_alone() {
    let rng = &mut Rng::new(8);
    let rows = exact_pair(rng, 40, 2).rows;
    let mut book = make::book(rng, &rows, 100);
    for number in 1..=6 {
        for place in Place::of(number) {
            let damaged = damaged_points(rng, number, *place).expect("it can stand there");
            for view in [0, 1, 3] {
                let answer = event(&mut book, &damaged.file, view);
                assert_eq!(answer, damaged.refusal.packed());
            }
        }
    }
}
