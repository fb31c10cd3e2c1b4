//! The calls on a full book beside the plain version: its check, an event, a label
//! and a pack.

use crate::input::{CODE, LABEL};
use crate::same::same;
use crate::{barred, by_turns, plain, MOST_RATIO, RUNS};
use paper::make::{book_in, exact_pair, point_file, Pair, Rng, View};
use std::hint::black_box;
use ttw::calls;

/// The bars: how many times the plain version an event may take, and microseconds
/// of the check of a full book.
const MOST_EVENT: f64 = 1.1;
const MOST_CHECK: f64 = 200.0;

/// How many slots a book has, and records of the table file.
const SLOTS: usize = 256;
const ROWS: usize = 1_000;

/// How often an event and its opposite are done in one run.
const TIMES: u64 = 20;

/// Live views of delivery points of their own, in slots of any order, and the files
/// that they are of.
struct Depot {
    pair: Pair,
    views: Vec<View>,
}

impl Depot {
    fn new() -> Depot {
        let pair = exact_pair(&mut Rng::new(8), ROWS, ROWS);
        let live = pair.views.iter().filter(|view| view.is_live());
        let views: Vec<View> = live.take(SLOTS).cloned().collect();
        assert_eq!(views.len(), SLOTS);
        Depot { pair, views }
    }

    /// A book of the first so many of them.
    fn book(&self, count: usize) -> Vec<u8> {
        let slots: Vec<usize> = (0..SLOTS).map(|number| number * 101 % SLOTS).collect();
        book_in(&slots[..count], &self.views[..count])
    }
}

/// Times the calls on a book.
pub fn print_all() {
    let depot = Depot::new();
    let full = depot.book(SLOTS);
    print_check(&full);
    print_events(&depot, "of a month of 2 views", &[]);
    let month = exact_pair(&mut Rng::new(9), 2, 19_990).views;
    print_events(&depot, "of a month of 20,000 records", &month);
    print_written(&depot, &full);
}

fn print_check(book: &[u8]) {
    let mut library = || calls::book(black_box(book));
    let mut plain = || plain::book(black_box(book));
    assert_eq!(library(), plain());
    let [ours, theirs] = by_turns(RUNS, [&mut library, &mut plain]);
    println!(
        "ttw_book, {SLOTS} delivery points: {} beside {theirs:.1}, bar {MOST_CHECK:.0}, ratio {:.2}",
        barred(ours, MOST_CHECK),
        ours / theirs
    );
}

/// The last delivery point is deleted and inserted again, so that the book is what
/// it was; other views stand behind these two.
fn print_events(depot: &Depot, what: &str, others: &[View]) {
    let [deleted, inserted] = [(b'D', 1), (b'I', 2)].map(|(letter, time)| View {
        date: 0,
        time,
        letter,
        ..depot.views[SLOTS - 1].clone()
    });
    let points = point_file(&[&[deleted, inserted], others].concat());
    type Event = fn(&mut [u8], &[u8], u64) -> u64;
    let done = |event: Event, book: &mut [u8]| {
        let events = (0..2 * TIMES).map(|number| event(book, black_box(&points), 1 + number % 2));
        events.sum::<u64>()
    };
    let (mut one, mut other) = (depot.book(SLOTS), depot.book(SLOTS));
    assert_eq!(
        done(calls::book_event, &mut one),
        done(plain::book_event, &mut other)
    );
    assert!(one == other, "the books differ");
    let [ours, theirs] = by_turns(
        RUNS,
        [&mut || done(calls::book_event, &mut one), &mut || {
            done(plain::book_event, &mut other)
        }],
    );
    let each = |all: f64| all / (2 * TIMES) as f64;
    println!(
        "ttw_book_event, {what}: {:.1} beside {:.1}, ratio {}",
        each(ours),
        each(theirs),
        barred(ours / theirs, MOST_EVENT)
    );
}

/// The label of the last place, and the pack of the commonest code.
fn print_written(depot: &Depot, book: &[u8]) {
    let table = depot.pair.table.as_slice();
    type Written<'a> = &'a dyn Fn(&mut [u8]) -> u64;
    let last = SLOTS as u64;
    let calls: [(&str, usize, Written, Written); 2] = [
        (
            "ttw_book_label",
            LABEL,
            &|out| calls::book_label(black_box(book), table, last, out),
            &|out| plain::book_label(black_box(book), table, last, out),
        ),
        (
            "ttw_book_build",
            1 << 17,
            &|out| calls::book_build(black_box(book), table, CODE, out),
            &|out| plain::book_build(black_box(book), table, CODE, out),
        ),
    ];
    for (name, room, library, plain) in calls {
        same(name, room, |out, _| library(out), |out, _| plain(out));
        let (mut one, mut other) = (vec![0; room], vec![0; room]);
        let [ours, theirs] = by_turns(RUNS, [&mut || library(&mut one), &mut || plain(&mut other)]);
        println!(
            "{name}, a table file of {ROWS} records: {ours:.1} beside {theirs:.1}, ratio {}",
            barred(ours / theirs, MOST_RATIO)
        );
    }
}
