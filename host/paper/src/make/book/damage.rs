use super::{book, FOLLOWER, SLOT, SLOTS, VIEW};
use crate::make::{exact_pair, point_breaks, Break, Rng};

/// Bytes that are no book, and the ground that refuses them.
#[derive(Clone, Debug)]
pub struct DamagedBook {
    pub ground: &'static str,
    pub book: Vec<u8>,
}

/// For every ground of refusal 28 a book that has this fault alone.
pub fn damaged_books(rng: &mut Rng) -> Vec<DamagedBook> {
    let rows = exact_pair(rng, 40, 2).rows;
    let sound = |rng: &mut Rng| {
        let count = 6 + rng.below(SLOTS - 6);
        book(rng, &rows, count)
    };
    let long = sound(rng);
    let mut all = vec![DamagedBook {
        ground: "another length",
        book: another_length(rng, long),
    }];
    for (ground, damage) in GROUNDS {
        let mut book = sound(rng);
        damage(rng, &mut book);
        all.push(DamagedBook { ground, book });
    }
    all
}

/// Does the damage to a book of 6 delivery points at least, some of each kind, that
/// has a free slot.
type Damage = fn(&mut Rng, &mut [u8]);

const GROUNDS: [(&str, Damage); 16] = [
    ("another count", another_count),
    ("a count above 256", count_above_256),
    ("a place twice", place_twice),
    ("a place above the count", place_above_the_count),
    ("a byte in a free slot", byte_in_a_free_slot),
    ("records in a free slot", records_in_a_free_slot),
    ("a malformed view", malformed_view),
    ("a view that is not live", view_not_live),
    ("no view", no_view),
    ("a follower missing", follower_missing),
    ("a follower stray", follower_stray),
    ("a byte where no follower is due", byte_for_a_follower),
    ("a follower of another", follower_of_another),
    ("a follower of the other type", follower_of_the_other_type),
    ("a malformed follower", malformed_follower),
    ("a delivery point twice", delivery_point_twice),
];

/// Where one of the slots stands for which this holds; there has to be one.
fn slot_that(rng: &mut Rng, book: &[u8], holds: impl Fn(&[u8]) -> bool) -> usize {
    let slots = (0..SLOTS * SLOT).step_by(SLOT);
    let fitting: Vec<usize> = slots.filter(|at| holds(&book[*at..][..SLOT])).collect();
    *rng.pick(&fitting)
}

fn place(slot: &[u8]) -> u16 {
    u16::from_be_bytes([slot[0], slot[1]])
}

fn is_used(slot: &[u8]) -> bool {
    place(slot) != 0
}

/// The type of the follower in a slot: `2`, `3`, or no character where there is
/// none.
fn follower_type(slot: &[u8]) -> u8 {
    slot[FOLLOWER + 41]
}

fn is_followed(slot: &[u8]) -> bool {
    follower_type(slot) != 0
}

fn count(book: &[u8]) -> u16 {
    place(&book[SLOTS * SLOT..])
}

fn set_count(book: &mut [u8], count: u16) {
    book[SLOTS * SLOT..].copy_from_slice(&count.to_be_bytes());
}

fn another_length(rng: &mut Rng, mut book: Vec<u8>) -> Vec<u8> {
    let length = book.len();
    let other = [0, SLOT, length - 2, length - 1, length + 1, length + SLOT];
    book.resize(*rng.pick(&other), 0);
    book
}

fn another_count(rng: &mut Rng, book: &mut [u8]) {
    let right = count(book);
    let other = [0, right - 1, right + 1];
    set_count(book, *rng.pick(&other));
}

fn count_above_256(rng: &mut Rng, book: &mut [u8]) {
    let other = [257, 512, count(book) + 256, 65_535];
    set_count(book, *rng.pick(&other));
}

fn place_twice(rng: &mut Rng, book: &mut [u8]) {
    let at = slot_that(rng, book, is_used);
    let right = place(&book[at..]);
    let other = slot_that(rng, book, |slot| is_used(slot) && place(slot) != right);
    book.copy_within(other..other + 2, at);
}

fn place_above_the_count(rng: &mut Rng, book: &mut [u8]) {
    let at = slot_that(rng, book, is_used);
    let above = [count(book) + 1, 257, 65_535];
    let above = *rng.pick(&above);
    book[at..][..2].copy_from_slice(&above.to_be_bytes());
}

fn byte_in_a_free_slot(rng: &mut Rng, book: &mut [u8]) {
    let at = slot_that(rng, book, |slot| !is_used(slot));
    book[at + 2 + rng.below(SLOT - 2)] = *rng.pick(b"\x01 0A\xff");
}

/// The last place is taken away with its count, and what stood there stays.
fn records_in_a_free_slot(rng: &mut Rng, book: &mut [u8]) {
    let last = count(book);
    let at = slot_that(rng, book, |slot| place(slot) == last);
    book[at..][..2].fill(0);
    set_count(book, last - 1);
}

/// What stands in the first 41 bytes is changed in the follower too, so that it is
/// still this owner's.
fn malformed_view(rng: &mut Rng, book: &mut [u8]) {
    let at = slot_that(rng, book, is_used);
    let change = pick_break(rng, point_breaks(1));
    change.apply(&mut book[at + VIEW..][..168]);
    if change.at < 41 && is_followed(&book[at..]) {
        change.apply(&mut book[at + FOLLOWER..][..168]);
    }
}

fn pick_break(rng: &mut Rng, breaks: Vec<Break>) -> Break {
    rng.pick(&breaks).clone()
}

fn view_not_live(rng: &mut Rng, book: &mut [u8]) {
    let at = slot_that(rng, book, is_used);
    let letter = *rng.pick(b"BD");
    book[at + VIEW + 40] = letter;
    if is_followed(&book[at..]) {
        book[at + FOLLOWER + 40] = letter;
    }
}

/// A follower's record stands where the view has to, well formed.
fn no_view(rng: &mut Rng, book: &mut [u8]) {
    let at = slot_that(rng, book, is_followed);
    book.copy_within(at + FOLLOWER..at + SLOT, at + VIEW);
}

fn follower_missing(rng: &mut Rng, book: &mut [u8]) {
    let at = slot_that(rng, book, is_followed);
    book[at + FOLLOWER..at + SLOT].fill(0);
}

fn follower_stray(rng: &mut Rng, book: &mut [u8]) {
    let at = slot_that(rng, book, |slot| is_used(slot) && !is_followed(slot));
    let other = slot_that(rng, book, is_followed);
    book.copy_within(other + FOLLOWER..other + SLOT, at + FOLLOWER);
    book.copy_within(at + VIEW..at + VIEW + 41, at + FOLLOWER);
}

fn byte_for_a_follower(rng: &mut Rng, book: &mut [u8]) {
    let at = slot_that(rng, book, |slot| is_used(slot) && !is_followed(slot));
    book[at + FOLLOWER + rng.below(168)] = *rng.pick(b"\x01 0A\xff");
}

fn follower_of_another(rng: &mut Rng, book: &mut [u8]) {
    let at = slot_that(rng, book, is_followed);
    book[at + FOLLOWER + rng.below(41)] ^= 1;
}

fn follower_of_the_other_type(rng: &mut Rng, book: &mut [u8]) {
    let at = slot_that(rng, book, is_followed);
    book[at + FOLLOWER + 41] ^= 1;
}

fn malformed_follower(rng: &mut Rng, book: &mut [u8]) {
    let at = slot_that(rng, book, is_followed);
    let mut breaks = point_breaks(follower_type(&book[at..]) - b'0');
    breaks.retain(|change| change.at >= 42);
    pick_break(rng, breaks).apply(&mut book[at + FOLLOWER..][..168]);
}

/// At another postcode and with another label.
fn delivery_point_twice(rng: &mut Rng, book: &mut [u8]) {
    let at = slot_that(rng, book, is_used);
    let right = place(&book[at..]);
    let other = slot_that(rng, book, |slot| is_used(slot) && place(slot) != right);
    book.copy_within(other + VIEW..other + SLOT, at + VIEW);
    book[at + VIEW + 14..][..7].copy_from_slice(b"EC1N2AA");
    if is_followed(&book[at..]) {
        book[at + FOLLOWER + 14..][..7].copy_from_slice(b"EC1N2AA");
    }
}
