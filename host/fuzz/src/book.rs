//! A book for a case, with a table file, a point file and what is asked of them:
//! made of the case's files, mutated, damaged in every way that `ttw-paper` knows,
//! or kept through a month; and every call on it.

use crate::case::{run_written, same, written, Case, Ours, Plain, PlainRun};
use crate::edge::{Edge, Flush};
use crate::files::{number_of, Files};
use crate::mutate;
use crate::reached::Reached;
use paper::make::{self, history, padded, DamagedBook, Rng, Shape, View};
use paper::{book, Refusal};
use std::collections::BTreeSet;
use std::sync::LazyLock;
use ttw::calls;

/// A book and what is asked of it.
pub struct BookCase {
    pub bytes: Vec<u8>,
    pub table: Vec<u8>,
    pub points: Vec<u8>,
    pub code: Vec<u8>,
    /// The number of a view of the point file.
    pub view: u64,
    pub place: u64,
    /// A number of one that is present in the code.
    pub nth: u64,
}

/// How many slots a book has.
const SLOTS: usize = 256;

/// Books damaged in every way, several times.
static DAMAGED: LazyLock<Vec<DamagedBook>> = LazyLock::new(|| {
    let seeds = 0..6;
    let books = seeds.flat_map(|seed| make::damaged_books(&mut Rng::new(seed)));
    books.collect()
});

/// The book of a case.
pub fn of_case(rng: &mut Rng, files: &Files) -> BookCase {
    let mut case = match rng.below(4) {
        0 => of_month(rng),
        1 => BookCase {
            bytes: rng.pick(&DAMAGED).book.clone(),
            ..of_files(rng, files)
        },
        _ => of_files(rng, files),
    };
    if rng.one_in(4) {
        mutate::book(rng, &mut case.bytes);
    }
    case
}

/// Most of the live views of the case's files, the one that is asked for among
/// them, each delivery point once.
fn of_files(rng: &mut Rng, files: &Files) -> BookCase {
    let asked = files.pair.views.get(files.view.wrapping_sub(1) as usize);
    let is_asked = |view: &View| Some(view) == asked;
    let mut known = BTreeSet::new();
    let mut views = files.pair.views.clone();
    views.retain(|view| {
        let known_by = (view.postcode_type, view.address_key, view.organisation_key);
        view.is_live() && (is_asked(view) || !rng.one_in(4)) && known.insert(known_by)
    });
    views.truncate(SLOTS);
    let (start, step) = (rng.below(SLOTS), 1 + 2 * rng.below(SLOTS / 2));
    let slots: Vec<usize> = (0..views.len())
        .map(|number| (start + step * number) % SLOTS)
        .collect();
    let in_code = |view: &&View| padded(&view.outward, 4) == files.code;
    let place = views.iter().position(is_asked);
    let nth = views.iter().filter(in_code).position(is_asked);
    let mut number = |place: Option<usize>| match place {
        Some(place) => place as u64 + 1,
        None => number_of(rng, views.len()),
    };
    BookCase {
        place: number(place),
        nth: number(nth),
        bytes: make::book_in(&slots, &views),
        table: files.table.clone(),
        points: files.points.clone(),
        code: files.code.clone(),
        view: files.view,
    }
}

/// A month of a depot, and a book that has some of its delivery points.
fn of_month(rng: &mut Rng) -> BookCase {
    let shape = Shape {
        points: *rng.pick(&[8, 600]),
        months: 1,
        events: 12,
    };
    let month = history(rng, shape).months.remove(0);
    let present = *rng.pick(&[0, 6, 100, SLOTS - 1, SLOTS, SLOTS]);
    BookCase {
        bytes: make::book(rng, &month.rows, present),
        code: padded(&rng.pick(&month.views).outward, 4),
        view: number_of(rng, month.views.len()),
        place: number_of(rng, present),
        nth: number_of(rng, 8),
        table: month.table,
        points: month.points,
    }
}

/// A case's book, lent at an edge with what stands beside it.
pub struct LentBook {
    flush: Flush,
    book: Edge,
    table: Edge,
    points: Edge,
    code: Edge,
}

impl LentBook {
    pub fn new(case: &BookCase, flush: Flush) -> LentBook {
        let lent = |bytes: &[u8]| Edge::readable(bytes, flush);
        LentBook {
            flush,
            book: lent(&case.bytes),
            table: lent(&case.table),
            points: lent(&case.points),
            code: lent(&case.code),
        }
    }

    /// Every call on the book.
    pub fn ask(&self, case: &Case, reached: &mut Reached) {
        self.ask_counts(&case.book, reached);
        self.ask_changes(&case.book, reached);
        self.ask_labels(case, reached);
        self.ask_runs(case, reached);
        self.ask_build(case, reached);
    }

    /// The calls that only read.
    fn ask_counts(&self, case: &BookCase, reached: &mut Reached) {
        let (book, code) = (self.book.bytes(), self.code.bytes());
        let plain = book::count(&case.bytes);
        same("book", calls::book(book), plain, reached);
        let plain = book::live(&case.bytes, &case.code);
        same("book live", calls::book_live(book, code), plain, reached);
    }

    /// The calls that change the book, whose whole content is compared.
    fn ask_changes(&self, case: &BookCase, reached: &mut Reached) {
        let (points, view) = (self.points.bytes(), case.view);
        self.changed(
            "book event",
            &|book| calls::book_event(book, points, view),
            &|book| book::event(book, &case.points, view),
            reached,
        );
        self.changed(
            "book tidy",
            &calls::book_tidy,
            &|book| book::tidy(book),
            reached,
        );
    }

    fn changed(
        &self,
        call: &'static str,
        ours: &dyn Fn(&mut [u8]) -> u64,
        plain: &dyn Fn(&mut [u8]) -> Result<u64, Refusal>,
        reached: &mut Reached,
    ) {
        let mut expected = self.book.bytes().to_vec();
        let mut lent = Edge::writable(&expected, self.flush);
        let answer = ours(lent.bytes_mut());
        same(call, answer, plain(&mut expected), reached);
        assert!(lent.bytes() == expected, "{call}: the books differ");
        assert!(lent.is_clean_around(), "{call}: bytes beside the book");
    }

    /// The calls that write a label.
    fn ask_labels(&self, case: &Case, reached: &mut Reached) {
        let (book, table, code) = (self.book.bytes(), self.table.bytes(), self.code.bytes());
        let of = &case.book;
        let (place, k) = (of.place, of.nth);
        let mut written = |call, ours: &dyn Fn(&mut [u8]) -> u64, plain: &Plain| {
            written(call, self.flush, case.room, ours, plain, reached);
        };
        written(
            "book label",
            &|out| calls::book_label(book, table, place, out),
            &|out| book::label(&of.bytes, &of.table, place, out),
        );
        written(
            "book code label",
            &|out| calls::book_code_label(book, table, code, k, out),
            &|out| book::code_label(&of.bytes, &of.table, &of.code, k, out),
        );
    }

    /// The calls that print a run of labels or list places.
    fn ask_runs(&self, case: &Case, reached: &mut Reached) {
        let (book, table, code) = (self.book.bytes(), self.table.bytes(), self.code.bytes());
        let of = &case.book;
        let (place, k, count) = (of.place, of.nth, case.count);
        let mut run = |call, ours: &Ours, plain: &PlainRun| {
            run_written(call, self.flush, case.run_room, ours, plain, reached);
        };
        run(
            "book labels",
            &|out, bytes| calls::book_labels(book, table, place, count, out, bytes),
            &|out| book::labels(&of.bytes, &of.table, place, count, out),
        );
        run(
            "book code labels",
            &|out, bytes| calls::book_code_labels(book, table, code, k, count, out, bytes),
            &|out| book::code_labels(&of.bytes, &of.table, &of.code, k, count, out),
        );
        run(
            "book list",
            &|out, bytes| calls::book_list(book, table, place, count, out, bytes),
            &|out| book::list(&of.bytes, &of.table, place, count, out),
        );
        run(
            "book code list",
            &|out, bytes| calls::book_code_list(book, table, code, k, count, out, bytes),
            &|out| book::code_list(&of.bytes, &of.table, &of.code, k, count, out),
        );
    }

    /// Building, with some room, with just enough, and with a byte less.
    fn ask_build(&self, case: &Case, reached: &mut Reached) {
        let (book, table, code) = (self.book.bytes(), self.table.bytes(), self.code.bytes());
        let of = &case.book;
        let ours = |out: &mut [u8]| calls::book_build(book, table, code, out);
        let plain = |out: &mut [u8]| book::build(&of.bytes, &of.table, &of.code, out);
        let mut build = |room| written("book build", self.flush, room, &ours, &plain, reached);
        let answer = build(case.room);
        if answer >> 56 == 10 {
            let needed = answer as u32 as usize;
            build(needed);
            build(needed - 1);
        }
    }
}
