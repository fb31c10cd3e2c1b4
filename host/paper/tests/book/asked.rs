//! Labels, runs, listings and packs of a book and a table file, beside those of
//! the pair whose views are what is present.

use crate::{add, book_of, empty, refused, view, LENGTH};
use paper::make::{
    damaged_table, pair, table_file, whole_view, Pair, Place, Rng, TableRow, View, FORBIDDEN,
    MISSING,
};
use paper::{book, code_label, code_labels, code_list, label, labels, list, Refusal, Run};
use std::collections::BTreeSet;

/// A pair whose views are all inserted, each a delivery point of its own, and at
/// most 256 of them.
fn inserted(rng: &mut Rng) -> Pair {
    let made = pair(rng, 120);
    let mut known = BTreeSet::new();
    let mut views = made.views;
    views.retain(|view| {
        let known_by = (view.postcode_type, view.address_key, view.organisation_key);
        known.insert(known_by)
    });
    for view in &mut views {
        view.letter = b'I';
    }
    views.truncate(256);
    let pair = Pair::new(made.rows, views);
    assert_eq!(pair.views.len(), known.len().min(256));
    pair
}

/// The book of all views of a pair, in their order.
fn book_of_pair(pair: &Pair) -> Vec<u8> {
    let mut book = empty();
    for view in 1..=pair.views.len() as u64 {
        assert_eq!(book::event(&mut book, &pair.points, view), Ok(view));
    }
    book
}

/// What a call says and writes into so much room.
fn said<T>(room: usize, call: impl FnOnce(&mut [u8]) -> T) -> (T, Vec<u8>) {
    let mut out = vec![0xA5; room];
    let answer = call(&mut out);
    (answer, out)
}

/// A listing of places as one of views reads.
fn as_views(listed: (Result<Run, Refusal>, Vec<u8>)) -> Vec<u8> {
    let (answer, out) = listed;
    let text = &out[..answer.expect("listed").bytes];
    let text = String::from_utf8(text.to_vec()).expect("text");
    let line = |line: &str| match line.strip_prefix("place ") {
        Some(number) => format!("view {number} I\n"),
        None => format!("{line}\n"),
    };
    text.lines().map(line).collect::<String>().into_bytes()
}

#[test]
fn a_book_says_what_the_pair_of_its_views_says() {
    for seed in 0..40 {
        let rng = &mut Rng::new(seed);
        let pair = inserted(rng);
        let Pair { table, points, .. } = &pair;
        let book = book_of_pair(&pair);
        let views = pair.views.len() as u64;
        for view in 0..=views + 1 {
            let room = rng.below(300);
            let ours = said(room, |out| book::label(&book, table, view, out));
            assert_eq!(ours, said(room, |out| label(table, points, view, out)));
        }
        let room = rng.below(9_000);
        let ours = said(room, |out| book::labels(&book, table, 1, views, out));
        assert_eq!(ours, said(room, |out| labels(table, points, 1, views, out)));
        let all = 512 * (pair.views.len() + 1);
        let ours = said(all, |out| book::list(&book, table, 1, views, out));
        let (run, theirs) = said(all, |out| list(table, points, 1, views, out));
        let bytes = run.expect("listed").bytes;
        assert!(as_views(ours) == theirs[..bytes]);
    }
}

#[test]
fn a_code_of_a_book_is_that_code_of_the_pair() {
    for seed in 0..40 {
        let rng = &mut Rng::new(seed);
        let pair = inserted(rng);
        let Pair { table, points, .. } = &pair;
        let book = book_of_pair(&pair);
        let codes = pair.views.iter().map(|view| view.record()[14..18].to_vec());
        let codes: BTreeSet<Vec<u8>> = codes.chain([b"ZE1 ".to_vec(), b"QA1 ".to_vec()]).collect();
        for code in &codes {
            let live = paper::live(points, code).map(|live| live as u64);
            assert_eq!(book::live(&book, code), live);
            let k = rng.below(5) as u64;
            let ours = said(400, |out| book::code_label(&book, table, code, k, out));
            let theirs = said(400, |out| code_label(table, points, code, k, out));
            assert_eq!(ours, theirs);
            let ours = said(5_000, |out| {
                book::code_labels(&book, table, code, k, 9, out)
            });
            let theirs = said(5_000, |out| code_labels(table, points, code, k, 9, out));
            assert_eq!(ours, theirs);
            let room = rng.below(30_000);
            let ours = said(room, |out| book::build(&book, table, code, out));
            let theirs = said(room, |out| paper::build(table, points, code, out));
            assert_eq!(ours, theirs);
        }
    }
}

#[test]
fn a_listing_of_a_code_has_the_places_in_the_book() {
    let rng = &mut Rng::new(3);
    let pair = inserted(rng);
    let book = book_of_pair(&pair);
    let code = pair.views[0].record()[14..18].to_vec();
    let all = 512 * (pair.views.len() + 1);
    let live = book::live(&book, &code).expect("a code");
    let ours = said(all, |out| {
        book::code_list(&book, &pair.table, &code, 1, live, out)
    });
    let (run, theirs) = said(all, |out| {
        code_list(&pair.table, &pair.points, &code, 1, live, out)
    });
    assert!(as_views(ours) == theirs[..run.expect("listed").bytes]);
}

#[test]
fn the_order_is_that_of_the_places() {
    let table = table_file(&[
        TableRow::locality(1, "HARTWELL BAY", "", ""),
        TableRow::thoroughfare(7, "QUARRY"),
    ]);
    let mut book = book_of([30, 10, 20]);
    let removed = View {
        letter: b'D',
        ..view(10)
    };
    crate::event(&mut book, &[removed], 1).expect("present");
    add(&mut book, &[view(40)]);
    let (answer, out) = said(600, |out| book::list(&book, &table, 1, 3, out));
    let text = "place 1\n30 QUARRY\nHARTWELL BAY\nAB1 9ZZ\n\
                place 2\n20 QUARRY\nHARTWELL BAY\nAB1 9ZZ\n\
                place 3\n40 QUARRY\nHARTWELL BAY\nAB1 9ZZ\n";
    assert_eq!(&out[..answer.expect("listed").bytes], text.as_bytes());
}

#[test]
fn the_order_of_refusals_is_28_the_table_file_12_7_8_9_10() {
    let (rows, whole) = whole_view();
    let table = table_file(&rows);
    let mut book = empty();
    add(&mut book, &[whole]);
    let damaged = damaged_table(&mut Rng::new(1), 4, Place::Second).expect("it can stand there");
    let none = &book[..LENGTH - 1];
    let label = |book: &[u8], table: &[u8], code: &[u8], k| {
        said(0, |out| book::code_label(book, table, code, k, out)).0
    };
    assert_eq!(label(none, &damaged.file, b"QA1 ", 0), refused(28));
    let refusal = damaged.refusal;
    assert_eq!(refusal.file, 1);
    assert_eq!(label(&book, &damaged.file, b"QA1 ", 0), Err(refusal));
    assert_eq!(label(&book, &table, b"QA1 ", 0), refused(12));
    assert_eq!(label(&book, &table, b"AB1 ", 2), refused(7));
    let room = label(&book, &table, b"AB1 ", 1).expect_err("no room");
    assert_eq!(room.number, 10);
    assert_eq!(book::live(none, b"QA1 "), refused(28));
    assert_eq!(book::live(&book, b"QA1 "), refused(12));
}

/// Rule and field of a label's own refusal, and where building gives it the place.
#[test]
fn a_label_s_own_refusals_name_rule_field_and_place() {
    let (rows, whole) = whole_view();
    let table = table_file(&rows);
    let forbidden = FORBIDDEN.map(|(change, rule)| (change, Refusal::new(8, rule)));
    let missing = (1..=7)
        .zip(MISSING)
        .map(|(field, change)| (change, Refusal::new(9, field)));
    for (change, refusal) in missing.chain(forbidden) {
        let mut bad = View {
            address_key: whole.address_key + 1,
            ..whole.clone()
        };
        change(&mut bad);
        let mut book = empty();
        add(&mut book, &[whole.clone(), bad]);
        let (answer, _) = said(499, |out| book::label(&book, &table, 2, out));
        assert_eq!(answer, Err(refusal));
        let (answer, out) = said(9_000, |out| book::build(&book, &table, b"AB1 ", out));
        let with_place = Refusal {
            second: 2,
            ..refusal
        };
        assert_eq!(answer, Err(with_place));
        assert!(out.iter().all(|byte| *byte == 0xA5));
    }
}

#[test]
fn runs_and_listings_stop_as_those_of_a_pair() {
    let table = table_file(&[TableRow::locality(1, "HARTWELL BAY", "", "")]);
    let town = |address_key| View {
        thoroughfare: 0,
        ..view(address_key)
    };
    let mut book = empty();
    add(&mut book, &[town(1), view(2), town(3)]);
    let (answer, _) = said(600, |out| book::labels(&book, &table, 1, 9, out));
    let run = answer.expect("a run");
    assert_eq!((run.labels, run.stop), (1, Some(Refusal::new(9, 2))));
    let (answer, out) = said(600, |out| book::list(&book, &table, 2, 9, out));
    let run = answer.expect("a listing");
    assert_eq!((run.labels, run.stop), (2, Some(Refusal::new(7, 0))));
    assert!(out.starts_with(b"place 2\nrefused 9 2\nplace 3\n3 HARTWELL BAY\n"));
    let whole = [
        book::labels(&book[1..], &table, 1, 1, &mut []),
        book::list(&book[1..], &table, 1, 1, &mut []),
    ];
    assert_eq!(whole, [refused(28), refused(28)]);
    let code = book::code_labels(&book, &table, b"ab1 ", 1, 1, &mut []);
    assert_eq!(code, refused(12));
}
