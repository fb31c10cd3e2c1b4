//! The calls on a book as fast as a good C programmer would write them. As those on
//! files, they ask for no memory and keep to the stack that the header promises.

mod event;
#[cfg(test)]
mod tests;

pub use event::event;

use crate::chunks::chunks;
use crate::plain_fields::{all, check_code, refused};
use crate::plain_files::{
    build_of, elements_of, is_live, is_organisation, is_view, needed, table_records, Point,
};
use crate::plain_label::label as print;
use paper::Refusal;

/// How many slots a book has.
const SLOTS: usize = 256;

/// A slot: place, view, follower.
type Slot = [u8; 338];

/// No slot.
const NONE: u16 = u16::MAX;

/// What is known of a book that was accepted: the slot of each place, and how many
/// there are.
pub struct Order {
    slots: [u16; SLOTS],
    count: usize,
}

fn place_in(slot: &Slot) -> usize {
    usize::from(u16::from_be_bytes([slot[0], slot[1]]))
}

fn view_in(slot: &Slot) -> &Point {
    slot[2..].first_chunk().expect("a record")
}

fn follower_in(slot: &Slot) -> &Point {
    slot[170..].first_chunk().expect("a record")
}

/// The slots of a book; none where the length is another.
fn slots_of(book: &[u8]) -> Option<(&[Slot], usize)> {
    let (slots, rest) = chunks(book);
    let count = u16::from_be_bytes(rest.try_into().ok()?);
    (slots.len() == SLOTS).then_some((slots, usize::from(count)))
}

/// Address key and organisation key, which are digits, so that the first bit is
/// free for the postcode type.
fn key_of(view: &Point) -> u128 {
    let keys = u128::from_be_bytes(*view[24..].first_chunk().expect("two keys"));
    keys | u128::from(view[23] == b'L') << 127
}

/// Whether a slot in use has a live view and the follower that it needs.
fn is_present(slot: &Slot) -> bool {
    let (view, next) = (view_in(slot), follower_in(slot));
    let followed = match needed(view) {
        0 => all(next, |byte| byte == 0),
        kind => {
            (next[41] == kind) & (next[..41] == view[..41]) & is_organisation(next, kind == b'2')
        }
    };
    is_view(view, view, false) & is_live(view) & followed
}

impl Order {
    pub fn of(book: &[u8]) -> Result<Order, Refusal> {
        Order::read(book).map_or_else(|| refused(paper::book::count(book)), Ok)
    }

    fn read(book: &[u8]) -> Option<Order> {
        let (slots, count) = slots_of(book)?;
        let mut order = Order {
            slots: [NONE; SLOTS],
            count,
        };
        let (mut keys, mut used) = ([0; SLOTS], 0);
        for (at, slot) in slots.iter().enumerate() {
            if order.takes(at, slot)? {
                keys[used] = key_of(view_in(slot));
                used += 1;
            }
        }
        let keys = &mut keys[..used];
        keys.sort_unstable();
        let once = keys.windows(2).all(|two| two[0] != two[1]);
        let listed = used == count && !order.slots[..count].contains(&NONE);
        (once && listed).then_some(order)
    }

    /// Whether a slot is in use; none where it is no slot, or its place is taken.
    fn takes(&mut self, at: usize, slot: &Slot) -> Option<bool> {
        let place = place_in(slot);
        if place == 0 {
            return all(slot, |byte| byte == 0).then_some(false);
        }
        let taken = self.slots.get_mut(place - 1)?;
        let fine = *taken == NONE && is_present(slot);
        *taken = at as u16;
        fine.then_some(true)
    }

    /// The slot of each place, in their order.
    fn slots<'a>(&'a self, book: &'a [u8]) -> impl Iterator<Item = &'a Slot> + Clone + 'a {
        let (slots, _) = chunks(book);
        let places = &self.slots[..self.count];
        places.iter().map(|at| &slots[usize::from(*at)])
    }
}

/// How many delivery points a book has.
pub fn count(book: &[u8]) -> Result<usize, Refusal> {
    Ok(Order::of(book)?.count)
}

/// The label of a place.
pub fn label(book: &[u8], table: &[u8], place: u64, out: &mut [u8]) -> Result<usize, Refusal> {
    let order = Order::of(book)?;
    let rows = table_records(table)?;
    let before = usize::try_from(place.wrapping_sub(1)).unwrap_or(usize::MAX);
    let slot = order.slots(book).nth(before).ok_or(Refusal::new(7, 0))?;
    print(&elements_of(rows, view_in(slot), follower_in(slot))?, out)
}

/// The pack of a code.
pub fn build(book: &[u8], table: &[u8], code: &[u8], out: &mut [u8]) -> Result<usize, Refusal> {
    let order = Order::of(book)?;
    let rows = table_records(table)?;
    check_code(code)?;
    let views = order
        .slots(book)
        .map(|slot| (place_in(slot), view_in(slot), follower_in(slot)))
        .filter(|(_, view, _)| view[14..18] == *code);
    build_of(rows, views, |place| place as u64, code, out)
}
