//! Books, laid out slot by slot as document 02 has them; damaged ones, and
//! histories: the months of which a book is kept.

mod damage;
mod history;

pub use damage::{damaged_books, DamagedBook};
pub use history::{history, History, Shape};

use super::pairs::{fill, text, view};
use super::{outward, Follower, Rng, TableRow, View};

/// How many slots a book has, bytes of a slot, and where its view and its follower
/// begin.
const SLOTS: usize = 256;
const SLOT: usize = 338;
const VIEW: usize = 2;
const FOLLOWER: usize = 170;

/// A book of these views in order of their places, which stand in the slots of
/// these numbers, 0 being the first.
pub fn book_in(slots: &[usize], views: &[View]) -> Vec<u8> {
    let mut book = vec![0; SLOTS * SLOT];
    for ((place, slot), view) in (1u16..).zip(slots).zip(views) {
        let bytes = [&place.to_be_bytes(), &view.records().concat()[..]].concat();
        book[slot * SLOT..][..bytes.len()].copy_from_slice(&bytes);
    }
    book.extend((views.len() as u16).to_be_bytes());
    book
}

/// A book of these views in the first slots.
pub fn tidy_book(views: &[View]) -> Vec<u8> {
    book_in(&(0..views.len()).collect::<Vec<_>>(), views)
}

/// A random book of so many delivery points, at most 256, with keys of these rows,
/// in slots of any order. About half of the books have other bytes in what isn't
/// read, and some have views with missing keys and forbidden combinations.
pub fn book(rng: &mut Rng, rows: &[TableRow], count: usize) -> Vec<u8> {
    let one_fault_in = *rng.pick(&[0, 0, 2, 10]);
    let codes: Vec<String> = (0..1 + rng.below(4)).map(|_| text(outward(rng))).collect();
    let views: Vec<View> = (0..count.min(SLOTS))
        .map(|index| View {
            outward: rng.pick(&codes).clone(),
            letter: *rng.pick(b"IC"),
            ..known_as(index, view(rng, rows, one_fault_in))
        })
        .collect();
    let slots = shuffled(rng, SLOTS);
    let mut book = book_in(&slots[..views.len()], &views);
    if rng.one_in(2) {
        change_unread(rng, &mut book);
    }
    book
}

/// The view as one of the delivery point of that number. Three in a row differ in
/// postcode type and organisation key alone: a small user without organisation,
/// one with it, and a large user.
fn known_as(number: usize, view: View) -> View {
    let (organisation, department) = match &view.follower {
        Some(Follower {
            organisation,
            department,
            ..
        }) => (organisation.clone(), department.clone()),
        None => ("LEDA".to_string(), String::new()),
    };
    let known = View {
        address_key: (number / 3) as u32,
        organisation_key: 0,
        postcode_type: b'S',
        follower: None,
        ..view
    };
    match number % 3 {
        0 => known,
        1 if organisation.is_empty() => known.small_user(7, "LEDA", &department),
        1 => known.small_user(7, &organisation, &department),
        _ => known.large_user(&organisation, &department),
    }
}

/// Puts any bytes into what nobody reads: the views' new postcodes and fillers,
/// and the followers' fillers.
fn change_unread(rng: &mut Rng, book: &mut [u8]) {
    for slot in book.chunks_exact_mut(SLOT) {
        if slot[..2] != [0, 0] {
            fill(rng, &mut slot[VIEW + 116..FOLLOWER]);
            if slot[FOLLOWER] != 0 {
                fill(rng, &mut slot[FOLLOWER + 162..]);
            }
        }
    }
}

/// The numbers below the bound in any order.
fn shuffled(rng: &mut Rng, bound: usize) -> Vec<usize> {
    let mut numbers: Vec<usize> = (0..bound).collect();
    for last in (1..bound).rev() {
        numbers.swap(last, rng.below(last + 1));
    }
    numbers
}
