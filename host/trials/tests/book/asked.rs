//! Labels, runs, listings and packs of books.

use crate::{refusal, written};
use paper::make::{self, bad_outward, damaged_table, outward, pair, Pair, Place, Rng, TableRow};
use std::collections::{BTreeMap, BTreeSet};
use trials::around::Around;
use trials::book::{
    ask, build, code_label, code_labels, code_list, count, label, labels, list, live,
};
use trials::rooms::{label_rooms, pack_rooms};
use trials::runs::Asked;
use ttw::calls;

/// A table file and a book of so many whose keys are of its rows.
fn made(rng: &mut Rng, count: usize) -> (Vec<u8>, Vec<u8>) {
    let Pair { rows, table, .. } = pair(rng, 60);
    let book = make::book(rng, &rows, count);
    (book, table)
}

/// The outward codes of a book, one that it has not, and malformed ones.
fn codes(rng: &mut Rng, book: &[u8]) -> BTreeSet<Vec<u8>> {
    let present = paper::book::present(book).expect("a book");
    let codes = present.iter().map(|present| present.view[14..18].to_vec());
    codes
        .chain([outward(rng), bad_outward(rng), Vec::new()])
        .collect()
}

#[test]
fn labels_of_every_place_with_room_around_what_is_needed() {
    let mut told = BTreeMap::new();
    for seed in 0..40 {
        let rng = &mut Rng::new(seed);
        let present = *rng.pick(&[0, 1, 5, 20]);
        let (book, table) = made(rng, present);
        for place in (0..=present as u64 + 1).chain([1 << 32, u64::MAX]) {
            let answer = label_rooms(|room| label(&book, &table, place, room));
            *told.entry(refusal(answer)).or_insert(0) += 1;
        }
    }
    println!("{told:?}");
    assert_eq!(told.into_keys().collect::<Vec<u8>>(), [0, 7, 8, 9]);
}

#[test]
fn labels_and_packs_of_every_code() {
    let mut told = BTreeMap::new();
    for seed in 0..60 {
        let rng = &mut Rng::new(seed);
        let present = *rng.pick(&[0, 3, 30, 256]);
        let (book, table) = made(rng, present);
        for code in codes(rng, &book) {
            let live = live(&book, &code);
            let last = if refusal(live) == 0 { live } else { 1 };
            for k in [0, 1, last, last + 1, u64::MAX] {
                let answer = label_rooms(|room| code_label(&book, &table, &code, k, room));
                *told.entry(refusal(answer)).or_insert(0) += 1;
            }
            pack_rooms(|room| build(&book, &table, &code, room));
        }
    }
    println!("{told:?}");
    assert_eq!(told.into_keys().collect::<Vec<u8>>(), [0, 7, 8, 9, 12]);
}

/// Demand 3: the k-th point of the pack has the label of the k-th that is present in the code.
#[test]
fn a_pack_from_a_book_says_what_the_book_says() {
    let mut built = 0;
    for seed in 0..60 {
        let rng = &mut Rng::new(seed);
        let (book, table) = made(rng, 40);
        for code in codes(rng, &book) {
            let mut pack = vec![0; 1 << 16];
            let length = calls::book_build(&book, &table, &code, &mut pack);
            if refusal(length) != 0 {
                continue;
            }
            pack.truncate(length as usize);
            let points = live(&book, &code);
            assert_eq!(calls::pack(&pack), points);
            for k in 0..=points + 1 {
                assert_eq!(
                    written(|out| calls::pack_label(&pack, k, out)),
                    written(|out| calls::book_code_label(&book, &table, &code, k, out))
                );
            }
            built += 1;
        }
    }
    assert!(built > 50, "{built}");
}

#[test]
fn runs_and_listings_from_every_place() {
    for seed in 0..6 {
        let rng = &mut Rng::new(seed);
        let present = seed;
        let (book, table) = made(rng, present as usize);
        let mut around = Around::new(520);
        around.ask(rng, present, |asked| labels(&book, &table, asked));
        around.ask(rng, present, |asked| list(&book, &table, asked));
        for code in codes(rng, &book) {
            let live = paper::book::live(&book, &code).unwrap_or(1);
            around.ask(rng, live, |asked| code_labels(&book, &table, &code, asked));
            around.ask(rng, live, |asked| code_list(&book, &table, &code, asked));
        }
    }
}

#[test]
fn whole_books_in_one_run() {
    for seed in 0..10 {
        let rng = &mut Rng::new(seed);
        let (book, table) = made(rng, 256);
        let all = Asked::new(1, 256, 520 * 256);
        labels(&book, &table, all);
        assert_eq!(list(&book, &table, all), 256);
    }
}

#[test]
fn refused_table_files_are_told_behind_28_and_before_the_code() {
    let rng = &mut Rng::new(3);
    let (book, _) = made(rng, 9);
    for number in 1..=5 {
        for place in Place::of(number) {
            let damaged = damaged_table(rng, number, *place).expect("it can stand there");
            let refusal = damaged.refusal.packed();
            let asked = Asked::new(0, 1, 100);
            let table = &damaged.file;
            assert_eq!(label(&book, table, 0, 0), refusal);
            assert_eq!(labels(&book, table, asked), refusal);
            assert_eq!(list(&book, table, asked), refusal);
            assert_eq!(code_label(&book, table, b"", 0, 0), refusal);
            assert_eq!(code_labels(&book, table, b"", asked), refusal);
            assert_eq!(code_list(&book, table, b"", asked), refusal);
            assert_eq!(build(&book, table, b"", 0), refusal);
        }
        assert_eq!(count(&book), 9);
    }
}

/// Rows for keys that no delivery point of the book refers to (document 02, No. 13).
#[test]
fn unused_rows_do_not_matter() {
    for seed in 0..40 {
        let rng = &mut Rng::new(seed);
        let Pair { rows, table, .. } = pair(rng, 40);
        let book = make::book(rng, &rows, 12);
        let unused = [
            TableRow::locality(77_777_777, "ELSEWHERE", "", ""),
            TableRow::thoroughfare(77_777_777, "OTHER"),
            TableRow::building(77_777_777, "NOWHERE"),
        ];
        let more = Pair::new([&rows[..], &unused[..]].concat(), Vec::new()).table;
        assert_ne!(more, table);
        for place in 1..=12 {
            let one = written(|out| calls::book_label(&book, &table, place, out));
            let other = written(|out| calls::book_label(&book, &more, place, out));
            assert_eq!(one, other);
        }
        for code in codes(rng, &book) {
            let one = written(|out| calls::book_build(&book, &table, &code, out));
            let other = written(|out| calls::book_build(&book, &more, &code, out));
            assert_eq!(one, other);
        }
    }
}

#[test]
fn every_call_on_made_books() {
    for seed in 0..100 {
        let rng = &mut Rng::new(seed);
        let present = *rng.pick(&[0, 1, 7, 255, 256]);
        let (book, table) = made(rng, present);
        let code = rng.pick::<&[u8]>(&[b"AB1 ", b"QA1 ", b"EC1N"]);
        let place = rng.below(present + 2) as u64;
        assert_eq!(ask(&book, &table, code, place), present as u64);
    }
}
