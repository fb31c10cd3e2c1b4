//! Document 02, No. 10: the address book, sentence by sentence.

mod asked;
mod events;
mod grounds;
mod histories;

use paper::make::{point_file, View};
use paper::{book, Refusal};
use std::slice::from_ref;

/// Bytes of a book and of a slot.
const LENGTH: usize = 86_530;
const SLOT: usize = 338;

fn empty() -> Vec<u8> {
    vec![0; LENGTH]
}

/// The slot of that number, 0 being the first.
fn slot(book: &[u8], number: usize) -> &[u8] {
    &book[number * SLOT..][..SLOT]
}

/// A view of the delivery point with that address key, which stands behind those
/// with lower ones in a file.
fn view(address_key: u32) -> View {
    View {
        time: address_key,
        address_key,
        locality: 1,
        thoroughfare: 7,
        building_number: address_key % 10_000,
        ..View::default()
    }
}

/// The same with another letter.
fn lettered(letter: u8, address_key: u32) -> View {
    View {
        letter,
        ..view(address_key)
    }
}

/// Names an event in the point file of these views. A refused one has to leave the
/// book as it was.
#[track_caller]
fn event(book: &mut Vec<u8>, views: &[View], number: u64) -> Result<u64, Refusal> {
    let before = book.clone();
    let answer = book::event(book, &point_file(views), number);
    if answer.is_err() {
        assert!(*book == before, "a refused event wrote");
    }
    answer
}

/// Adds these in their order, each from a file of its own.
#[track_caller]
fn add(book: &mut Vec<u8>, views: &[View]) {
    for view in views {
        let before = book::count(book).expect("a book");
        let answer = event(book, from_ref(view), 1);
        assert_eq!(answer, Ok(before + 1));
    }
}

/// A book of the delivery points with these address keys.
fn book_of(address_keys: impl IntoIterator<Item = u32>) -> Vec<u8> {
    let mut book = empty();
    let views: Vec<View> = address_keys.into_iter().map(view).collect();
    add(&mut book, &views);
    book
}

/// The address keys of what is present, in the order of the places.
#[track_caller]
fn present(book: &[u8]) -> Vec<u32> {
    let key = |view: &[u8]| {
        let digits = std::str::from_utf8(&view[24..32]).expect("digits");
        digits.parse().expect("a number")
    };
    let present = book::present(book).expect("a book");
    present.iter().map(|present| key(&present.view)).collect()
}

/// A refusal without detail and without a file.
fn refused<T>(number: u8) -> Result<T, Refusal> {
    Err(Refusal::new(number, 0))
}
