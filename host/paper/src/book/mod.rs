//! Document 02, No. 10, "Keep a running address book": what a book is, and the
//! delivery points that it has, in the order of their places. Everything that is
//! no book is refused with 28, first.

mod ask;
mod event;

pub use ask::{build, code_label, code_labels, code_list, label, labels, list, live};
pub use event::{event, tidy};

use crate::files::{follower_type, is_owned, is_view, point_fault};
use crate::layout::book::{COUNT, FOLLOWER, LENGTH, PLACE, SLOT, VIEW};
use crate::layout::point;
use crate::records::is_all;
use crate::refusal::Refusal;

/// How many delivery points a book has.
pub fn count(book: &[u8]) -> Result<u64, Refusal> {
    Ok(present(book)?.len() as u64)
}

/// What a book means: the delivery points that are present, in the order of their
/// places.
pub fn present(book: &[u8]) -> Result<Vec<Present>, Refusal> {
    let slots = Slots::accept(book)?.0;
    let mut used: Vec<Slot> = slots.into_iter().flatten().collect();
    used.sort_by_key(|slot| slot.place);
    Ok(used.into_iter().map(|slot| slot.present).collect())
}

/// A delivery point that is present: the record of its view and, where it has
/// one, of its follower.
#[derive(Clone, PartialEq, Eq, Debug)]
pub struct Present {
    pub view: Vec<u8>,
    pub follower: Option<Vec<u8>>,
}

impl Present {
    /// What the two records of a slot in use say; none where the view isn't a well
    /// formed type 1 record that is live, or its follower is malformed, missing or
    /// stray.
    fn read(view: &[u8], follower: &[u8]) -> Option<Present> {
        let is_live = matches!(view[point::LETTER.start], b'I' | b'C');
        if point_fault(view) != 0 || !is_view(view) || !is_live {
            return None;
        }
        let kind = follower_type(view);
        let is_right = match kind {
            Some(kind) => is_owned(follower, view, kind) && point_fault(follower) == 0,
            None => is_all(follower, 0),
        };
        is_right.then(|| Present {
            view: view.to_vec(),
            follower: kind.map(|_| follower.to_vec()),
        })
    }

    /// What it is known by: postcode type, address key and organisation key.
    pub fn delivery_point(&self) -> &[u8] {
        delivery_point(&self.view)
    }
}

/// What the delivery point of a view's record is known by.
fn delivery_point(view: &[u8]) -> &[u8] {
    &view[point::DELIVERY_POINT]
}

/// A slot in use.
struct Slot {
    place: usize,
    present: Present,
}

/// The slots of a book in their order; none where a slot is free.
struct Slots(Vec<Option<Slot>>);

impl Slots {
    fn accept(book: &[u8]) -> Result<Slots, Refusal> {
        Slots::read(book).ok_or(Refusal::new(28, 0))
    }

    fn read(book: &[u8]) -> Option<Slots> {
        if book.len() != LENGTH {
            return None;
        }
        let slots = book[..COUNT.start].chunks(SLOT).map(read_slot);
        let slots = Slots(slots.collect::<Option<_>>()?);
        let is_book = slots.has_places_up_to(number(&book[COUNT])) && slots.has_none_twice();
        is_book.then_some(slots)
    }

    /// Places are 1 up to the count, each once. A count above 256 has more of them
    /// than there are slots.
    fn has_places_up_to(&self, count: usize) -> bool {
        let mut places: Vec<usize> = self.used().map(|slot| slot.place).collect();
        places.sort_unstable();
        places.into_iter().eq(1..=count)
    }

    /// No delivery point stands twice.
    fn has_none_twice(&self) -> bool {
        let mut known: Vec<&[u8]> = self
            .used()
            .map(|slot| slot.present.delivery_point())
            .collect();
        known.sort_unstable();
        known.windows(2).all(|two| two[0] != two[1])
    }

    fn used(&self) -> impl Iterator<Item = &Slot> {
        self.0.iter().flatten()
    }

    /// The number of the slot that has a delivery point.
    fn slot_of(&self, delivery_point: &[u8]) -> Option<usize> {
        self.0.iter().position(|slot| {
            slot.as_ref()
                .is_some_and(|slot| slot.present.delivery_point() == delivery_point)
        })
    }

    /// Writes the whole book anew: zeros, and what is present.
    fn write(&self, book: &mut [u8]) {
        book.fill(0);
        for (slot, bytes) in self.0.iter().zip(book.chunks_mut(SLOT)) {
            if let Some(Slot { place, present }) = slot {
                bytes[PLACE].copy_from_slice(&bytes_of(*place));
                bytes[VIEW].copy_from_slice(&present.view);
                if let Some(follower) = &present.follower {
                    bytes[FOLLOWER].copy_from_slice(follower);
                }
            }
        }
        book[COUNT].copy_from_slice(&bytes_of(self.used().count()));
    }
}

/// A slot: none within where it is free, none at all where it is no slot.
fn read_slot(slot: &[u8]) -> Option<Option<Slot>> {
    let place = number(&slot[PLACE]);
    if place == 0 {
        return is_all(slot, 0).then_some(None);
    }
    let present = Present::read(&slot[VIEW], &slot[FOLLOWER])?;
    Some(Some(Slot { place, present }))
}

/// "Numbers as in a pack": the most significant byte first.
fn number(bytes: &[u8]) -> usize {
    bytes
        .iter()
        .fold(0, |number, byte| number * 256 + usize::from(*byte))
}

/// A place or a count, which is at most 256, in its 2 bytes.
fn bytes_of(number: usize) -> [u8; 2] {
    (number as u16).to_be_bytes()
}
