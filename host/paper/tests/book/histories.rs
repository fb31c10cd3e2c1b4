//! Long random histories beside a plain list of what the accepted events say is
//! present, and made books.

use crate::{empty, refused};
use paper::book::{self, Present};
use paper::make::{book, damaged_books, exact_pair, history, tidy_book, Pair, Rng, Shape, View};
use paper::Refusal;
use std::collections::{BTreeMap, BTreeSet};

/// What the sentences of document 02 come to on a list, a view's records for each
/// delivery point.
#[derive(Default)]
struct List(Vec<View>);

fn known_by(view: &View) -> (u8, u32, u32) {
    (view.postcode_type, view.address_key, view.organisation_key)
}

impl List {
    fn place_of(&self, view: &View) -> Option<usize> {
        let same = |present: &View| known_by(present) == known_by(view);
        self.0.iter().position(same)
    }

    /// The place, counted from 1, or the number of the refusal.
    fn event(&mut self, views: &[View], at: usize) -> Result<u64, u8> {
        let view = &views[at];
        let place = self.place_of(view);
        let told = |place: usize| place as u64 + 1;
        match (view.letter, place) {
            (b'I', Some(_)) => Err(17),
            (b'I', None) if self.0.len() == 256 => Err(20),
            (b'I', None) => {
                self.0.push(view.clone());
                Ok(self.0.len() as u64)
            }
            (b'D', None) => Err(18),
            (b'D', Some(place)) => {
                self.0.remove(place);
                Ok(told(place))
            }
            (b'B', _) => {
                let next = views.get(at + 1);
                let next = next.filter(|next| next.letter == b'C');
                let next = next.filter(|next| known_by(next) == known_by(view));
                let next = next.ok_or(19)?;
                let place = place.ok_or(18)?;
                self.0[place] = next.clone();
                Ok(told(place))
            }
            _ => Err(19),
        }
    }

    fn present(&self) -> Vec<Present> {
        let records = |view: &View| {
            let mut records = view.records().into_iter();
            Present {
                view: records.next().expect("a view"),
                follower: records.next(),
            }
        };
        self.0.iter().map(records).collect()
    }
}

/// Names every view of a month in turn, and fails unless the book means the list
/// behind each. Counts the answers: 0 for a place.
fn keep(book: &mut [u8], list: &mut List, month: &Pair, told: &mut BTreeMap<u8, u64>) {
    for at in 0..month.views.len() {
        let before = book.to_vec();
        let answer = book::event(book, &month.points, at as u64 + 1);
        let expected = list.event(&month.views, at);
        assert_eq!(answer, expected.map_err(|number| Refusal::new(number, 0)));
        assert_eq!(answer.is_err(), book == before);
        *told.entry(expected.err().unwrap_or(0)).or_default() += 1;
    }
    assert_eq!(book::present(book), Ok(list.present()));
}

#[test]
fn from_empty_places_list_what_the_accepted_events_say_is_present() {
    let mut told = BTreeMap::new();
    let mut full = 0;
    for seed in 0..24 {
        let rng = &mut Rng::new(seed);
        let shape = Shape {
            points: *rng.pick(&[12, 90, 290, 400]),
            months: 10,
            events: 80,
        };
        let (mut book, mut list) = (empty(), List::default());
        for month in history(rng, shape).months {
            keep(&mut book, &mut list, &month, &mut told);
            full += u64::from(list.0.len() == 256);
            if rng.one_in(3) {
                assert_eq!(book::tidy(&mut book), Ok(list.0.len() as u64));
                assert!(book == tidy_book(&list.0));
            }
        }
    }
    println!("{told:?}, full {full}");
    assert_eq!(
        told.keys().copied().collect::<Vec<_>>(),
        [0, 17, 18, 19, 20]
    );
    assert!(told.values().all(|times| *times > 100), "{told:?}");
    assert!(full > 3, "{full}");
}

/// How many B of a month have their C directly behind them, behind them with others
/// between, directly behind them at another postcode, and directly before them.
fn stand(month: &Pair) -> [usize; 4] {
    let views = &month.views;
    let mut stand = [0; 4];
    for (at, b) in views.iter().enumerate().filter(|(_, b)| b.letter == b'B') {
        let its = |view: &&View| view.letter == b'C' && known_by(view) == known_by(b);
        let next = views.get(at + 1).filter(its);
        let later = views[at + 1..].iter().find(its);
        stand[0] += usize::from(next.is_some());
        stand[1] += usize::from(next.is_none() && later.is_some());
        stand[2] += usize::from(next.is_some_and(|next| next.outward != b.outward));
        stand[3] += usize::from(views[..at].last().filter(its).is_some());
    }
    stand
}

#[test]
fn histories_have_b_and_c_together_and_apart() {
    let shape = Shape {
        points: 60,
        months: 8,
        events: 60,
    };
    let histories = (0..10).map(|seed| history(&mut Rng::new(seed), shape));
    let mut all = [0; 4];
    for month in histories.flat_map(|history| history.months) {
        for (all, here) in all.iter_mut().zip(stand(&month)) {
            *all += here;
        }
    }
    println!("{all:?}");
    assert!(all.iter().all(|times| *times > 20), "{all:?}");
}

#[test]
fn made_books_are_books_of_so_many() {
    let rng = &mut Rng::new(5);
    let rows = exact_pair(rng, 40, 2).rows;
    for count in (0..=256).step_by(16) {
        let made = book(rng, &rows, count);
        assert_eq!(book::count(&made), Ok(count as u64));
        let mut tidy = made.clone();
        assert_eq!(book::tidy(&mut tidy), Ok(count as u64));
        assert_eq!(book::present(&tidy), book::present(&made));
        assert!(count == 0 || tidy != made);
    }
}

#[test]
fn damaged_books_are_none() {
    let mut grounds = BTreeSet::new();
    for seed in 0..60 {
        for damaged in damaged_books(&mut Rng::new(seed)) {
            assert_eq!(
                book::count(&damaged.book),
                refused(28),
                "{}",
                damaged.ground
            );
            grounds.insert(damaged.ground);
        }
    }
    assert_eq!(grounds.len(), 17);
}
