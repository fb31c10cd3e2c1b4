//! Each ground for 28, and what is none.

use crate::{add, book_of, empty, lettered, refused, slot, view, LENGTH, SLOT};
use paper::book;
use paper::make::{point_breaks, View};

/// Fails unless every call says that this is no book, and those that write leave
/// it as it was.
#[track_caller]
fn none(bytes: &[u8], what: &str) {
    assert_eq!(book::count(bytes), refused(28), "{what}");
    let mut changed = bytes.to_vec();
    assert_eq!(book::event(&mut changed, &[], 1), refused(28), "{what}");
    assert_eq!(book::tidy(&mut changed), refused(28), "{what}");
    assert!(changed == bytes, "{what}");
}

/// A book with a free slot between two that are in use: a small user with an
/// organisation and a large user.
fn two_apart() -> Vec<u8> {
    let mut book = empty();
    let views = [
        view(1).small_user(7, "LEDA", "STORES"),
        view(2),
        view(3).large_user("", "METERS"),
    ];
    add(&mut book, &views);
    let removed = lettered(b'D', 2);
    crate::event(&mut book, &[removed], 1).expect("present");
    book
}

/// The book with these bytes at a place of a slot.
fn with(book: &[u8], number: usize, at: usize, bytes: &[u8]) -> Vec<u8> {
    let mut book = book.to_vec();
    book[number * SLOT + at..][..bytes.len()].copy_from_slice(bytes);
    book
}

#[test]
fn another_length() {
    let book = two_apart();
    none(&[], "no bytes");
    none(&book[..LENGTH - 1], "one less");
    none(&[&book[..], &[0]].concat(), "one more");
    none(&book[..LENGTH - 2], "no count");
    none(&[&book[..], &book[..]].concat(), "two");
}

#[test]
fn another_count() {
    let book = two_apart();
    for count in [0, 1, 3, 256, 257, 512, 65_535u16] {
        let wrong = [&book[..LENGTH - 2], &count.to_be_bytes()].concat();
        none(&wrong, &count.to_string());
    }
    let full = book_of(1..=256);
    for count in [255, 257, 1, 65_535u16] {
        let wrong = [&full[..LENGTH - 2], &count.to_be_bytes()].concat();
        none(&wrong, &count.to_string());
    }
}

#[test]
fn places_that_are_not_one_up_to_the_count() {
    let book = two_apart();
    for (number, place) in [(0, 2), (0, 3), (2, 1), (2, 3), (2, 256), (2, 258u16)] {
        let wrong = with(&book, number, 0, &place.to_be_bytes());
        none(&wrong, &format!("{number} {place}"));
    }
    // Both places in the other slot is a book: only which they are counts.
    let swapped = with(&with(&book, 0, 0, &[0, 2]), 2, 0, &[0, 1]);
    assert_eq!(book::count(&swapped), Ok(2));
}

#[test]
fn a_byte_in_a_free_slot() {
    let book = two_apart();
    for at in 2..SLOT {
        none(&with(&book, 1, at, &[1]), &at.to_string());
        none(&with(&book, 255, at, b" "), &at.to_string());
    }
    // The records stay, and the place alone is taken away.
    let mut freed = with(&book, 2, 0, &[0, 0]);
    freed[LENGTH - 1] = 1;
    none(&freed, "freed");
}

#[test]
fn a_view_that_is_not_live_or_no_view() {
    let book = two_apart();
    for letter in [b"B", b"D"] {
        let wrong = with(&with(&book, 0, 2 + 40, letter), 0, 170 + 40, letter);
        none(&wrong, "letter");
    }
    let small = slot(&book, 0);
    let follower_first = with(&book, 0, 2, &small[170..]);
    none(&follower_first, "a follower in the view's place");
    // The letter C is as good as I, in the view and in its follower together.
    let changed = with(&with(&book, 0, 2 + 40, b"C"), 0, 170 + 40, b"C");
    assert_eq!(book::count(&changed), Ok(2));
}

#[test]
fn every_field_of_a_view_that_is_read() {
    let book = book_of([1, 2]);
    for change in point_breaks(1) {
        let wrong = with(&book, 1, 2 + change.at, &change.bytes);
        none(&wrong, &format!("{change:?}"));
    }
    // The follower has the same first bytes, so that the view alone is at fault.
    let book = two_apart();
    for change in point_breaks(1).iter().filter(|change| change.at < 40) {
        let wrong = with(&book, 2, 2 + change.at, &change.bytes);
        let wrong = with(&wrong, 2, 170 + change.at, &change.bytes);
        none(&wrong, &format!("{change:?}"));
    }
}

#[test]
fn every_field_of_a_follower_that_is_read() {
    let book = two_apart();
    for (number, record_type) in [(0, 2), (2, 3)] {
        for change in point_breaks(record_type) {
            let wrong = with(&book, number, 170 + change.at, &change.bytes);
            none(&wrong, &format!("{change:?}"));
        }
    }
}

#[test]
fn a_follower_that_is_missing_stray_or_another_s() {
    let book = two_apart();
    let zeros = [0; 168];
    none(&with(&book, 0, 170, &zeros), "missing of a small user");
    none(&with(&book, 2, 170, &zeros), "missing of a large user");
    none(&with(&book, 0, 170 + 41, b"3"), "of the other type");
    none(&with(&book, 2, 170 + 41, b"2"), "of the other type");
    none(&with(&book, 2, 170 + 41, b"1"), "a view");
    for at in 0..41 {
        let other = slot(&book, 0)[170 + at] ^ 1;
        none(&with(&book, 0, 170 + at, &[other]), &at.to_string());
    }
    let alone = book_of([1]);
    let stray = view(1).small_user(7, "LEDA", "");
    let stray = View {
        organisation_key: 0,
        ..stray
    };
    none(&with(&alone, 0, 170, &stray.records()[1]), "stray");
    for at in 170..SLOT {
        none(&with(&alone, 0, at, &[1]), &at.to_string());
    }
}

#[test]
fn a_delivery_point_twice() {
    let book = book_of([1, 2, 3]);
    let twice = View {
        outward: "EC1N".to_string(),
        inward: "2AA".to_string(),
        building_number: 9,
        ..lettered(b'C', 1)
    };
    none(&with(&book, 2, 2, &twice.record()), "twice");
    let other = view(1).large_user("LEDA", "");
    let records = other.records().concat();
    assert_eq!(book::count(&with(&book, 2, 2, &records)), Ok(3));
}

#[test]
fn bytes_that_nobody_reads_are_no_ground() {
    let book = two_apart();
    for number in [0, 2] {
        for at in (2 + 116..170).chain(170 + 162..SLOT) {
            for byte in [0, 1, b'a', 255] {
                let changed = with(&book, number, at, &[byte]);
                assert_eq!(book::count(&changed), Ok(2), "{at}");
            }
        }
    }
}
