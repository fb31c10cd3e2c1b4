//! An event of a point file, done in a book.

use super::{view_in, Order, Slot, SLOTS};
use crate::plain_files::{needed, point_records, views_in, Point};
use crate::plain_label::from;
use paper::Refusal;

/// Bytes of a slot.
const SLOT: usize = 338;

/// Does the event whose first view has that number: the place concerned.
pub fn event(book: &mut [u8], points: &[u8], view: u64) -> Result<usize, Refusal> {
    let order = Order::of(book)?;
    let records = point_records(points)?;
    let mut views = from(view, views_in(records));
    let at = views.next().ok_or(Refusal::new(7, 0))?;
    let view = &records[at];
    let place = order.place_of(book, view);
    match view[40] {
        b'I' => order.add(book, place, view, &records[at + 1]),
        b'D' => order.remove(book, place),
        b'B' => {
            let its = |at: &usize| (records[*at][40] == b'C') & is_same(&records[*at], view);
            let next = views.next().filter(its).ok_or(Refusal::new(19, 0))?;
            let place = place.ok_or(Refusal::new(18, 0))?;
            let slot = usize::from(order.slots[place - 1]);
            put(book, slot, place, &records[next], &records[next + 1]);
            Ok(place)
        }
        _ => Err(Refusal::new(19, 0)),
    }
}

/// Whether two views are of the same delivery point.
fn is_same(one: &Point, other: &Point) -> bool {
    one[23..40] == other[23..40]
}

/// Writes a slot.
fn put(book: &mut [u8], slot: usize, place: usize, view: &Point, next: &Point) {
    let slot = &mut book[slot * SLOT..][..SLOT];
    slot[..2].copy_from_slice(&(place as u16).to_be_bytes());
    slot[2..170].copy_from_slice(view);
    match needed(view) {
        0 => slot[170..].fill(0),
        _ => slot[170..].copy_from_slice(next),
    }
}

fn put_count(book: &mut [u8], count: usize) {
    book[SLOTS * SLOT..].copy_from_slice(&(count as u16).to_be_bytes());
}

impl Order {
    /// The place of a view's delivery point, where it is present.
    fn place_of(&self, book: &[u8], view: &Point) -> Option<usize> {
        let same = |slot: &Slot| is_same(view_in(slot), view);
        self.slots(book).position(same).map(|before| before + 1)
    }

    fn add(
        &self,
        book: &mut [u8],
        place: Option<usize>,
        view: &Point,
        next: &Point,
    ) -> Result<usize, Refusal> {
        if place.is_some() {
            return Err(Refusal::new(17, 0));
        }
        let free = (0..SLOTS).find(|slot| book[slot * SLOT..][..2] == [0, 0]);
        let place = self.count + 1;
        put(book, free.ok_or(Refusal::new(20, 0))?, place, view, next);
        put_count(book, place);
        Ok(place)
    }

    fn remove(&self, book: &mut [u8], place: Option<usize>) -> Result<usize, Refusal> {
        let place = place.ok_or(Refusal::new(18, 0))?;
        let [removed, later @ ..] = &self.slots[place - 1..self.count] else {
            return Err(Refusal::new(18, 0));
        };
        book[usize::from(*removed) * SLOT..][..SLOT].fill(0);
        for (place, slot) in (place..).zip(later) {
            let at = usize::from(*slot) * SLOT;
            book[at..at + 2].copy_from_slice(&(place as u16).to_be_bytes());
        }
        put_count(book, self.count - 1);
        Ok(place)
    }
}
