//! What changes a book: the events of a point file, and tidying. A refused call
//! leaves it as it was. Refusals come in this order: 28, the point file's, 7, 19,
//! then 17, 18 and 20.

use super::{delivery_point, Present, Slot, Slots};
use crate::files::PointFile;
use crate::refusal::Refusal;
use crate::runs::from;
use crate::source::View;

/// Does in a book what the event says whose first view has that number. Answers
/// the place concerned; where a delivery point is removed, the one that it had.
pub fn event(book: &mut [u8], points: &[u8], view: u64) -> Result<u64, Refusal> {
    let mut slots = Slots::accept(book)?;
    let points = PointFile::accept(points)?;
    let place = match Event::named(points, view)? {
        Event::Add(new) => slots.add(new),
        Event::Remove(known) => slots.remove(&known),
        Event::Replace(new) => slots.replace(new),
    }?;
    slots.write(book);
    Ok(place as u64)
}

/// Moves places 1, 2 and so on into the first slots: how many there are.
pub fn tidy(book: &mut [u8]) -> Result<u64, Refusal> {
    let mut slots = Slots::accept(book)?;
    slots
        .0
        .sort_by_key(|slot| slot.as_ref().map_or(usize::MAX, |slot| slot.place));
    slots.write(book);
    Ok(slots.used().count() as u64)
}

/// What an event does.
enum Event {
    Add(Present),
    /// The delivery point, by what it is known by.
    Remove(Vec<u8>),
    /// What is present in its place then.
    Replace(Present),
}

impl Event {
    /// The event whose first view has that number. 7 where there is no such view;
    /// 19 where its letter is C, or it is B and the next view isn't the C of the
    /// same delivery point.
    fn named(points: PointFile, view: u64) -> Result<Event, Refusal> {
        let mut views = from(view, points.views());
        let view = views.next().ok_or(Refusal::new(7, 0))?;
        let known = delivery_point(view.record);
        let is_its_c =
            |next: &View| next.letter() == Some(b'C') && delivery_point(next.record) == known;
        match view.letter() {
            Some(b'I') => Ok(Event::Add(present_as(points, &view))),
            Some(b'D') => Ok(Event::Remove(known.to_vec())),
            Some(b'B') => match views.next().filter(is_its_c) {
                Some(next) => Ok(Event::Replace(present_as(points, &next))),
                None => Err(Refusal::new(19, 0)),
            },
            _ => Err(Refusal::new(19, 0)),
        }
    }
}

/// A view and its follower as they stand in the point file.
fn present_as<'a>(points: PointFile<'a>, view: &View<'a>) -> Present {
    Present {
        view: view.record.to_vec(),
        follower: points.follower(view).map(<[u8]>::to_vec),
    }
}

impl Slots {
    /// In the lowest free slot, behind all that are present. 17 where it is
    /// present, 20 where no slot is free.
    fn add(&mut self, new: Present) -> Result<usize, Refusal> {
        if self.slot_of(new.delivery_point()).is_some() {
            return Err(Refusal::new(17, 0));
        }
        let place = self.used().count() + 1;
        let free = self.0.iter_mut().find(|slot| slot.is_none());
        *free.ok_or(Refusal::new(20, 0))? = Some(Slot {
            place,
            present: new,
        });
        Ok(place)
    }

    /// Frees its slot; later places fall by one. 18 where it isn't present.
    fn remove(&mut self, known: &[u8]) -> Result<usize, Refusal> {
        let at = self.slot_of(known).ok_or(Refusal::new(18, 0))?;
        let removed = self.0[at].take().map_or(0, |slot| slot.place);
        for slot in self.0.iter_mut().flatten() {
            if slot.place > removed {
                slot.place -= 1;
            }
        }
        Ok(removed)
    }

    /// Puts other records into its slot; the place is kept. 18 where it isn't
    /// present.
    fn replace(&mut self, new: Present) -> Result<usize, Refusal> {
        let at = self.slot_of(new.delivery_point());
        let slot = at.and_then(|at| self.0[at].as_mut());
        let slot = slot.ok_or(Refusal::new(18, 0))?;
        slot.present = new;
        Ok(slot.place)
    }
}
