//! The plain version answers as the library does, through histories and of damaged
//! books.

use crate::plain;
use paper::make::{book, damaged_books, history, padded, Pair, Rng, Shape};
use ttw::calls;

/// Fails unless both do the same to a book.
fn same_event(book: &mut [u8], points: &[u8], view: u64) {
    let mut other = book.to_vec();
    let answer = calls::book_event(book, points, view);
    assert_eq!(answer, plain::book_event(&mut other, points, view));
    assert!(*book == other, "event {view}: the books differ");
}

fn same_answers(book: &[u8], month: &Pair, place: u64) {
    let table = &month.table;
    assert_eq!(calls::book(book), plain::book(book));
    let code = padded(&month.views[0].outward, 4);
    for room in [0, 100, 499, 9_000] {
        let mut ours = vec![0xA5; room];
        let mut theirs = ours.clone();
        let answer = calls::book_label(book, table, place, &mut ours);
        assert_eq!(answer, plain::book_label(book, table, place, &mut theirs));
        assert!(ours == theirs);
        let answer = calls::book_build(book, table, &code, &mut ours);
        assert_eq!(answer, plain::book_build(book, table, &code, &mut theirs));
        assert!(ours == theirs);
    }
}

#[test]
fn as_the_library_through_histories() {
    for seed in 0..6 {
        let rng = &mut Rng::new(seed);
        let shape = Shape {
            points: *rng.pick(&[30, 400]),
            months: 6,
            events: 60,
        };
        let mut book = vec![0; 86_530];
        for month in history(rng, shape).months {
            for view in 0..=month.views.len() as u64 + 1 {
                same_event(&mut book, &month.points, view);
            }
            (0..4).for_each(|place| same_answers(&book, &month, place));
        }
    }
}

#[test]
fn as_the_library_of_scattered_and_damaged_books() {
    for seed in 0..20 {
        let rng = &mut Rng::new(seed);
        let shape = Shape {
            points: 300,
            months: 1,
            events: 20,
        };
        let month = &history(rng, shape).months[0];
        let present = rng.below(257);
        let mut made = book(rng, &month.rows, present);
        same_answers(&made, month, 1 + rng.below(present + 1) as u64);
        (1..9).for_each(|view| same_event(&mut made, &month.points, view));
        for mut damaged in damaged_books(rng) {
            same_answers(&damaged.book, month, 1);
            same_event(&mut damaged.book, &month.points, 1);
        }
    }
}
