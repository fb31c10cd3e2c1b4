use super::known_as;
use crate::make::pairs::{row_of, text, view};
use crate::make::{outward, Pair, Rng, TableRow, View};

/// How a history is shaped.
#[derive(Clone, Copy, Debug)]
pub struct Shape {
    /// How many delivery points it speaks of.
    pub points: usize,
    pub months: usize,
    /// How many events a month has.
    pub events: usize,
}

/// The months of a depot, each a table file and a point file that are accepted. The
/// table files are all the same.
#[derive(Clone, Debug)]
pub struct History {
    pub months: Vec<Pair>,
}

/// Months in which delivery points are inserted, deleted, changed and moved, mostly
/// as the months before allow; some events are refused by any book. B and C stand
/// together, with other views between them, in the wrong order, or alone.
pub fn history(rng: &mut Rng, shape: Shape) -> History {
    let rows = rows(rng);
    let mut depot = Depot::new(rng, &rows, shape.points);
    let months = (1..=shape.months as u32)
        .map(|month| {
            let views = depot.month(20_110_000 + month, shape.events);
            Pair::new(rows.clone(), views)
        })
        .collect();
    History { months }
}

/// Ten rows of each type.
fn rows(rng: &mut Rng) -> Vec<TableRow> {
    let kinds = (1..=5).flat_map(|row_type| (1..=10).map(move |key| (row_type, key)));
    kinds
        .map(|(row_type, key)| row_of(rng, row_type, key))
        .collect()
}

/// The delivery points that a history speaks of.
struct Depot<'a> {
    rng: &'a mut Rng,
    rows: &'a [TableRow],
    codes: Vec<String>,
    /// Each as it was seen last, and whether it is present in a book that never was
    /// full.
    points: Vec<(View, bool)>,
    /// The month, the time of the last view, and the views of the month so far.
    date: u32,
    time: u32,
    views: Vec<View>,
}

/// What a month mostly does.
#[derive(Clone, Copy)]
enum Mood {
    Grows,
    Shrinks,
    Changes,
}

impl<'a> Depot<'a> {
    fn new(rng: &'a mut Rng, rows: &'a [TableRow], points: usize) -> Depot<'a> {
        let mut codes: Vec<String> = (0..4).map(|_| text(outward(rng))).collect();
        codes.sort();
        let one_fault_in = *rng.pick(&[0, 0, 12]);
        let point = |number| {
            let outward = rng.pick(&codes).clone();
            let view = known_as(number, view(rng, rows, one_fault_in));
            (View { outward, ..view }, false)
        };
        let points = (0..points).map(point).collect();
        Depot {
            rng,
            rows,
            codes,
            points,
            date: 0,
            time: 0,
            views: Vec::new(),
        }
    }

    fn month(&mut self, date: u32, events: usize) -> Vec<View> {
        self.date = date;
        self.time = 0;
        let moods = [Mood::Grows, Mood::Grows, Mood::Shrinks, Mood::Changes];
        let mood = *self.rng.pick(&moods);
        for _ in 0..events {
            self.event(mood);
        }
        std::mem::take(&mut self.views)
    }

    /// One event in twelve is one that the months before don't allow, or none.
    fn event(&mut self, mood: Mood) {
        self.time += 1;
        let often = match mood {
            Mood::Grows => 0..7,
            Mood::Shrinks => 3..11,
            Mood::Changes => 6..15,
        };
        if self.rng.one_in(12) {
            return self.strange();
        }
        match often.start + self.rng.below(often.len()) {
            0..=5 => self.insert(false),
            6..=9 => self.delete(true),
            10..=12 => self.change(true),
            _ => self.moved(),
        }
    }

    /// One of the delivery points that are present, or of those that aren't; any
    /// where there is none.
    fn pick(&mut self, present: bool) -> usize {
        let fitting = (0..self.points.len()).filter(|at| self.points[*at].1 == present);
        let fitting: Vec<usize> = fitting.collect();
        match fitting.is_empty() {
            true => self.rng.below(self.points.len()),
            false => *self.rng.pick(&fitting),
        }
    }

    /// A view of a delivery point, now.
    fn put(&mut self, at: usize, letter: u8) {
        self.views.push(View {
            date: self.date,
            time: self.time,
            letter,
            ..self.points[at].0.clone()
        });
    }

    fn insert(&mut self, present: bool) {
        let at = self.pick(present);
        self.put(at, b'I');
        self.points[at].1 = true;
    }

    fn delete(&mut self, present: bool) {
        let at = self.pick(present);
        self.put(at, b'D');
        self.points[at].1 = false;
    }

    /// B and C, one behind the other.
    fn change(&mut self, present: bool) {
        let at = self.pick(present);
        self.put(at, b'B');
        self.reshape(at);
        self.put(at, b'C');
    }

    /// Gives a delivery point another label; what it is known by stays.
    fn reshape(&mut self, at: usize) {
        let old = self.points[at].0.clone();
        let new = view(self.rng, self.rows, 12);
        let new = View {
            outward: old.outward,
            inward: old.inward,
            suffix: old.suffix,
            ..known_as(at, new)
        };
        self.points[at].0 = new;
    }

    /// B and C of one time at two postcodes. In a file they stand as the postcodes
    /// rise, so that C may come first, and what else changed then between them.
    fn moved(&mut self) {
        let at = self.pick(true);
        self.put(at, b'B');
        self.points[at].0.outward = self.rng.pick(&self.codes).clone();
        self.put(at, b'C');
        if self.rng.one_in(2) {
            self.insert(false);
        }
    }

    /// What isn't allowed, or is half of an event.
    fn strange(&mut self) {
        let at = self.pick(true);
        match self.rng.below(7) {
            0 => self.insert(true),
            1 => self.delete(false),
            2 => self.change(false),
            3 => self.put(at, b'B'),
            4 => self.put(at, b'C'),
            // B, and then the C of another delivery point.
            5 => {
                self.put(at, b'B');
                self.time += 1;
                let other = self.pick(true);
                self.put(other, b'C');
            }
            // B, and its C once something else has changed.
            _ => {
                self.put(at, b'B');
                self.time += 1;
                self.insert(false);
                self.time += 1;
                self.put(at, b'C');
            }
        }
    }
}
