//! What is no book, and what is one all the same.

use crate::{refusal, LENGTH};
use paper::make::{self, damaged_books, history, scratch, tidy_book, Pair, Rng, Shape, View};
use std::collections::BTreeMap;
use trials::book::{ask, count, is_none};

/// Bytes of a slot.
const SLOT: usize = 338;

/// A month to ask about.
fn month(rng: &mut Rng) -> Pair {
    let shape = Shape {
        points: 30,
        months: 1,
        events: 10,
    };
    history(rng, shape).months.remove(0)
}

#[test]
fn damaged_books_are_refused_by_every_call() {
    let mut grounds = BTreeMap::new();
    for seed in 0..40 {
        let rng = &mut Rng::new(seed);
        let Pair { table, points, .. } = month(rng);
        let codes: [&[u8]; 3] = [b"AB1 ", b"QA1 ", b""];
        for damaged in damaged_books(rng) {
            let number = rng.below(4) as u64;
            is_none(
                &damaged.book,
                &table,
                &points,
                rng.pick::<&[u8]>(&codes),
                number,
            );
            *grounds.entry(damaged.ground).or_insert(0) += 1;
        }
    }
    assert_eq!(grounds.len(), 17);
}

/// Behind 28 comes nothing: files that are no files are not looked at.
#[test]
fn what_is_no_book_is_told_before_any_file() {
    let rng = &mut Rng::new(2);
    for damaged in damaged_books(rng) {
        is_none(&damaged.book, b"no table", b"no points", b"no code", 0);
    }
}

/// A book of a small user with an organisation, one without, and a large user, with free slots between them.
fn small_book() -> Vec<u8> {
    let view = |address_key| View {
        address_key,
        locality: 1,
        ..View::default()
    };
    let views = [
        view(1).small_user(7, "LEDA", "STORES"),
        view(2),
        view(3).large_user("", "METERS"),
    ];
    make::book_in(&[1, 3, 0], &views)
}

/// Every byte of every kind of slot and of the count, with telling others in its place.
#[test]
fn every_byte_of_a_book_changed() {
    let book = small_book();
    let mut told = [0; 2];
    for at in (0..5 * SLOT).chain(255 * SLOT..LENGTH) {
        for byte in [0, 1, 2, 3, b' ', b'0', b'1', b'9', b'A', b'Z', b'a', 255] {
            let mut changed = book.clone();
            changed[at] = byte;
            let answer = refusal(count(&changed));
            assert!(answer == 0 || answer == 28);
            told[usize::from(answer != 0)] += 1;
        }
    }
    println!("{told:?}");
    assert!(told.iter().all(|times| *times > 1_000), "{told:?}");
}

#[test]
fn scratched_books() {
    let mut told = [0; 2];
    for seed in 0..400 {
        let rng = &mut Rng::new(seed);
        let month = month(rng);
        let present = rng.below(257);
        let mut book = make::book(rng, &month.rows, present);
        scratch(rng, &mut book);
        let answer = ask(&book, &month.table, b"AB1 ", 1);
        told[usize::from(answer >> 56 != 0)] += 1;
    }
    println!("{told:?}");
    assert!(told.iter().all(|times| *times > 20), "{told:?}");
}

/// Two delivery points that are the same but for one byte of type and keys, or in all of them.
#[test]
fn delivery_points_that_differ_in_one_byte() {
    let view = View {
        address_key: 11_111_111,
        ..View::default()
    };
    let first = view.clone().small_user(22_222_222, "LEDA", "");
    for at in 24..40 {
        for slots in [[0, 1], [255, 0], [7, 200]] {
            let mut book = make::book_in(&slots, &[first.clone(), first.clone()]);
            assert_eq!(refusal(count(&book)), 28);
            let start = slots[1] * SLOT + 2;
            book[start + at] = b'9';
            book[start + 168 + at] = b'9';
            assert_eq!(count(&book), 2);
        }
    }
    let large = View {
        organisation_key: 22_222_222,
        ..view.large_user("LEDA", "")
    };
    assert_eq!(count(&tidy_book(&[first, large])), 2);
}
