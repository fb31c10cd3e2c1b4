//! Events and tidying: what they do to the book, and which are refused.

use crate::{add, book_of, empty, event, lettered, present, refused, slot, view, LENGTH, SLOT};
use paper::make::{damaged_points, point_file, Place, Rng, View};
use paper::{book, Refusal};
use std::slice::from_ref;

#[test]
fn all_zeros_is_the_empty_book() {
    assert_eq!(book::count(&empty()), Ok(0));
    assert_eq!(book::present(&empty()), Ok(Vec::new()));
}

#[test]
fn i_adds_in_the_lowest_free_slot_behind_all_that_are_present() {
    let mut book = empty();
    let first = view(5);
    let second = view(3).small_user(7, "LEDA", "STORES");
    assert_eq!(event(&mut book, from_ref(&first), 1), Ok(1));
    assert_eq!(event(&mut book, &[second.clone(), view(4)], 1), Ok(2));
    let records = second.records();
    let zeros = vec![0; 168];
    let expected = [
        &[0, 1],
        &first.record()[..],
        &zeros,
        &[0, 2],
        &records[0],
        &records[1],
        &vec![0; 254 * SLOT],
        &[0, 2],
    ];
    assert!(book == expected.concat());
    assert_eq!(present(&book), [5, 3]);
}

#[test]
fn places_and_count_have_two_bytes_each() {
    let book = book_of(1..=256);
    assert_eq!(book[LENGTH - 2..], [1, 0]);
    assert_eq!(slot(&book, 255)[..2], [1, 0]);
    assert_eq!(slot(&book, 254)[..2], [0, 255]);
}

#[test]
fn d_removes_and_gives_the_place_it_had() {
    let mut book = book_of(1..=5);
    assert_eq!(event(&mut book, &[lettered(b'D', 2)], 1), Ok(2));
    assert_eq!(present(&book), [1, 3, 4, 5]);
    assert_eq!(slot(&book, 1), [0; SLOT]);
    let places: Vec<u8> = (0..5).map(|number| slot(&book, number)[1]).collect();
    assert_eq!(places, [1, 0, 2, 3, 4]);
    assert_eq!(event(&mut book, &[lettered(b'D', 5)], 1), Ok(4));
    assert_eq!(present(&book), [1, 3, 4]);
}

#[test]
fn a_removed_slot_is_used_again_and_comes_last_in_order() {
    let mut book = book_of(1..=5);
    for key in [4, 2] {
        event(&mut book, &[lettered(b'D', key)], 1).expect("present");
    }
    add(&mut book, &[view(9), view(2), view(8)]);
    assert_eq!(present(&book), [1, 3, 5, 9, 2, 8]);
    let places: Vec<u8> = (0..7).map(|number| slot(&book, number)[1]).collect();
    assert_eq!(places, [1, 4, 2, 5, 3, 6, 0]);
}

#[test]
fn a_replacement_keeps_its_place_and_its_slot() {
    let mut book = book_of(1..=3);
    event(&mut book, &[lettered(b'D', 1)], 1).expect("present");
    let after = View {
        building_number: 70,
        ..lettered(b'C', 2)
    };
    assert_eq!(
        event(&mut book, &[lettered(b'B', 2), after.clone()], 1),
        Ok(1)
    );
    assert_eq!(present(&book), [2, 3]);
    assert_eq!(slot(&book, 0), [0; SLOT]);
    assert_eq!(slot(&book, 1)[2..170], after.record());
}

#[test]
fn the_follower_of_b_is_skipped_and_that_of_c_is_kept() {
    let before = view(2).large_user("GRID OFFICE", "");
    let mut book = empty();
    add(&mut book, from_ref(&before));
    let old = View {
        letter: b'B',
        ..before.clone()
    };
    let new = View {
        letter: b'C',
        ..before.large_user("GRID WORKS", "METERS")
    };
    let views = [old, new.clone(), view(3)];
    assert_eq!(event(&mut book, &views, 1), Ok(1));
    assert_eq!(slot(&book, 0)[170..], new.records()[1]);
    assert_eq!(event(&mut book, &views, 3), Ok(2));
}

/// A delivery point is known by its type and keys alone, so that the C may stand
/// at another postcode.
#[test]
fn c_at_another_postcode_replaces_where_it_is_the_next_view() {
    let mut book = book_of([2]);
    let moved = View {
        inward: "9ZZ".to_string(),
        outward: "AB2".to_string(),
        ..lettered(b'C', 2)
    };
    assert_eq!(
        event(&mut book, &[lettered(b'B', 2), moved.clone()], 1),
        Ok(1)
    );
    assert_eq!(slot(&book, 0)[2..170], moved.record());
}

#[test]
fn b_and_c_apart_are_refused_with_19() {
    let mut book = book_of([2, 5]);
    let moved = View {
        outward: "AB3".to_string(),
        ..lettered(b'C', 2)
    };
    let between = View {
        outward: "AB2".to_string(),
        time: 2,
        ..view(7)
    };
    let views = [lettered(b'B', 2), between, moved];
    assert_eq!(event(&mut book, &views, 1), refused(19));
    assert_eq!(event(&mut book, &views, 3), refused(19));
    assert_eq!(event(&mut book, &views, 2), Ok(3));
}

#[test]
fn b_without_its_c_and_a_c_named_are_refused_with_19() {
    let mut book = book_of([2, 3]);
    let b = lettered(b'B', 2);
    let files = [
        vec![b.clone()],
        vec![b.clone(), view(3)],
        vec![b.clone(), lettered(b'B', 3), lettered(b'C', 3)],
        vec![b.clone(), lettered(b'D', 3)],
        vec![b.clone(), lettered(b'C', 3)],
        vec![lettered(b'C', 2)],
        vec![lettered(b'C', 1), b.clone()],
    ];
    for views in files {
        assert_eq!(event(&mut book, &views, 1), refused(19));
    }
    assert_eq!(event(&mut book, &[b, lettered(b'C', 2)], 2), refused(19));
}

/// Another postcode type, address key or organisation key is another delivery
/// point; nothing else is.
#[test]
fn a_delivery_point_is_known_by_type_and_keys() {
    let known = view(2).small_user(7, "LEDA", "");
    let mut book = empty();
    add(&mut book, from_ref(&known));
    let others = [
        view(3).small_user(7, "LEDA", ""),
        view(2).small_user(8, "LEDA", ""),
        View {
            organisation_key: 7,
            ..view(2).large_user("LEDA", "")
        },
        view(2),
    ];
    add(&mut book, &others);
    let same = [
        View {
            outward: "EC1N".to_string(),
            inward: "2AA".to_string(),
            ..known.clone()
        },
        View {
            suffix: "4B".to_string(),
            building_number: 1,
            date: 20_120_101,
            ..known.clone()
        },
        known.small_user(7, "OTHER", "NAME"),
    ];
    for view in same {
        assert_eq!(event(&mut book, &[view], 1), refused(17));
    }
}

#[test]
fn what_is_not_present_is_refused_with_18() {
    let mut book = book_of([2]);
    assert_eq!(event(&mut book, &[lettered(b'D', 3)], 1), refused(18));
    let change = [lettered(b'B', 3), lettered(b'C', 3)];
    assert_eq!(event(&mut book, &change, 1), refused(18));
    assert_eq!(event(&mut book, &[lettered(b'D', 2)], 1), Ok(1));
    assert_eq!(event(&mut book, &[lettered(b'D', 2)], 1), refused(18));
}

#[test]
fn a_full_book_refuses_with_20_and_17_comes_first() {
    let mut book = book_of(1..=256);
    assert_eq!(event(&mut book, &[view(257)], 1), refused(20));
    assert_eq!(event(&mut book, &[view(256)], 1), refused(17));
    let change = [lettered(b'B', 256), lettered(b'C', 256)];
    assert_eq!(event(&mut book, &change, 1), Ok(256));
    assert_eq!(event(&mut book, &[lettered(b'D', 1)], 1), Ok(1));
    assert_eq!(event(&mut book, &[view(257)], 1), Ok(256));
    assert_eq!(slot(&book, 0)[..2], [1, 0]);
    assert_eq!(event(&mut book, &[view(1)], 1), refused(20));
}

#[test]
fn the_order_is_28_the_file_7_19_and_then_the_rest() {
    let no_book = vec![0; LENGTH - 1];
    let mut book = book_of([1]);
    for number in 1..=6 {
        let rng = &mut Rng::new(u64::from(number));
        let place = *rng.pick(Place::of(number));
        let damaged = damaged_points(rng, number, place).expect("it can stand there");
        let refusal = damaged.refusal;
        assert_eq!(refusal.file, 2);
        assert_eq!(
            book::event(&mut no_book.clone(), &damaged.file, 0),
            refused(28)
        );
        let before = book.clone();
        assert_eq!(book::event(&mut book, &damaged.file, 0), Err(refusal));
        assert!(book == before);
    }
    let views = [lettered(b'B', 9), view(10)];
    for view in [0, 3, u64::MAX] {
        assert_eq!(event(&mut book, &views, view), refused(7));
    }
    // Not present too, and the book is full: 19 is told.
    let mut full = book_of(1..=256);
    assert_eq!(event(&mut full, &views, 1), refused(19));
    assert_eq!(event(&mut full, &[lettered(b'C', 300)], 1), refused(19));
}

#[test]
fn tidying_moves_places_into_the_first_slots_and_changes_no_meaning() {
    let mut book = book_of(1..=6);
    for key in [1, 4] {
        event(&mut book, &[lettered(b'D', key)], 1).expect("present");
    }
    add(&mut book, &[view(9)]);
    let before = book::present(&book);
    assert_eq!(book::tidy(&mut book), Ok(5));
    assert_eq!(book::present(&book), before);
    assert!(book == book_of([2, 3, 5, 6, 9]));
    assert_eq!(book::tidy(&mut book), Ok(5));
    assert!(book == book_of([2, 3, 5, 6, 9]));
}

#[test]
fn tidying_an_empty_book_and_what_is_none() {
    let mut book = empty();
    assert_eq!(book::tidy(&mut book), Ok(0));
    assert!(book == empty());
    let mut none = vec![0; LENGTH + 1];
    none[3] = 1;
    let before = none.clone();
    assert_eq!(book::tidy(&mut none), refused(28));
    assert!(none == before);
}

/// Records are kept whole, with the bytes that nobody reads.
#[test]
fn fillers_and_new_postcode_are_kept_as_they_came() {
    let mut book = empty();
    let mut points = point_file(&[view(1).small_user(7, "LEDA", "")]);
    points[168 + 116..2 * 168].fill(0xE9);
    points[3 * 168 - 6..3 * 168].fill(7);
    assert_eq!(book::event(&mut book, &points, 1), Ok(1));
    assert_eq!(slot(&book, 0)[2..], points[168..3 * 168]);
    assert_eq!(book::count(&book), Ok(1));
    let wrong = Refusal::new(17, 0);
    assert_eq!(book::event(&mut book, &points, 1), Err(wrong));
}
