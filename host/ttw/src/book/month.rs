//! The events of an accepted point file, in their order. Each is lent to the
//! library as a point file of its own, with its view and the next one alone, so
//! that a long month is not checked anew for every event of it.

use crate::kind::POINTS;
use ttw::ask::{self, Refusal};

/// The refusal of a change whose B and C do not stand together.
const APART: u8 = 19;

/// A point file, and where its views begin; the last place is the trailer's.
pub struct Month<'a> {
    points: &'a [u8],
    starts: Vec<usize>,
}

impl<'a> Month<'a> {
    pub fn of(points: &'a [u8]) -> Month<'a> {
        let trailer = points.len() - POINTS.record;
        let places = (POINTS.record..trailer).step_by(POINTS.record);
        let is_view = |at: &usize| !POINTS.follows(&points[*at..*at + POINTS.record]);
        let starts = places.filter(is_view).chain([trailer]).collect();
        Month { points, starts }
    }

    /// The events. The C behind its B is no event of its own; one that stands
    /// elsewhere is named, to be refused.
    pub fn events(&self) -> impl Iterator<Item = Event> + '_ {
        let mut view = 0;
        std::iter::from_fn(move || {
            let event = Event {
                points: self.file_of(view)?,
                view: view as u64 + 1,
            };
            view += event.views();
            Some(event)
        })
    }

    /// The file of a view, 0 being the first, and of the next one.
    fn file_of(&self, view: usize) -> Option<Vec<u8>> {
        let start = *self.starts.get(view)?;
        let end = *self.starts.get(view + 2).or(self.starts.get(view + 1))?;
        let records = (end - start) / POINTS.record + 2;
        let (header, trailer) = (&self.points[..POINTS.record], self.starts.last()?);
        let trailer = POINTS.counted(&self.points[*trailer..], records);
        Some([header, &self.points[start..end], &trailer].concat())
    }
}

/// An event, in a file of its own.
pub struct Event {
    points: Vec<u8>,
    /// The number of its view in the month.
    view: u64,
}

impl Event {
    pub fn apply(&self, book: &mut [u8]) -> Result<(), Refusal> {
        ask::book_event(book, &self.points, 1)?;
        Ok(())
    }

    pub fn name(&self) -> String {
        format!("view {}", self.view)
    }

    /// How many views it has: a B and its C are two. Whether they stand together the
    /// library says, of a book in which nothing is present.
    fn views(&self) -> usize {
        let is_b = ask::letter(&self.points, 1) == Ok('B');
        let empty = || ask::book_event(&mut vec![0; ask::BOOK], &self.points, 1);
        let is_apart = || empty().is_err_and(|why| why.number == APART);
        match is_b && !is_apart() {
            true => 2,
            false => 1,
        }
    }
}
