//! Calls on several threads at once, on the same slices: each answers as it
//! does alone.

use paper::make::{book, csv_file, csv_rows, exact_pair, exact_set, Rng};
use std::thread;
use ttw::ask::{self, Refusal, Run};
use ttw::main_set::MainSet;

/// What the calls on a pair, on a pack and on a CSV file answer about a number.
#[derive(Debug, PartialEq, Eq)]
struct Answers {
    counts: [Result<u64, Refusal>; 7],
    letter: Result<char, Refusal>,
    suffix: Result<String, Refusal>,
    texts: [Result<Vec<u8>, Refusal>; 6],
    runs: [(Result<Run, Refusal>, Vec<u8>); 6],
}

/// A run and the buffer that it leaves.
fn run(ask: impl FnOnce(&mut [u8]) -> Result<Run, Refusal>) -> (Result<Run, Refusal>, Vec<u8>) {
    let mut out = vec![0; 2_000];
    (ask(&mut out), out)
}

fn answers(table: &[u8], points: &[u8], pack: &[u8], csv: &[u8], k: u64) -> Answers {
    let code = b"AB1 ";
    Answers {
        counts: [
            ask::table(table),
            ask::points(points),
            ask::views(points),
            ask::live(points, code),
            ask::pack(pack),
            ask::sector(pack, k % 11),
            ask::csv(csv),
        ],
        letter: ask::letter(points, k),
        suffix: ask::pack_suffix(pack, k),
        texts: [
            ask::label(table, points, k),
            ask::code_label(table, points, code, k),
            ask::pack_label(pack, k),
            ask::build(table, points, code, 0),
            ask::csv_row(table, points, k),
            ask::csv_label(csv, k),
        ],
        runs: [
            run(|out| ask::labels(table, points, k, 40, out)),
            run(|out| ask::code_labels(table, points, code, k, 40, out)),
            run(|out| ask::pack_labels(pack, k, 40, out)),
            run(|out| ask::csv_rows(table, points, k, 40, out)),
            run(|out| ask::csv_labels(csv, k, 40, out)),
            run(|out| ask::csv_list(csv, k, 40, out)),
        ],
    }
}

/// What the calls on a Mainfile set answer about a number.
fn set_answers(set: MainSet, k: u64) -> (Vec<Result<Vec<u8>, Refusal>>, Vec<u64>) {
    let code = b"AB1 ";
    let mut out = vec![0; 2_000];
    let mut runs = Vec::new();
    for listed in [
        set.labels(k, 9, &mut out),
        set.code_labels(code, k, 9, &mut out),
        set.list(k, 9, &mut out),
        set.code_list(code, k, 9, &mut out),
        set.csv_rows(k, 9, &mut out),
    ] {
        runs.push(listed.map_or(0, |run| run.bytes as u64));
    }
    runs.extend([set.views(), set.live(code)].map(|count| count.unwrap_or(0)));
    let texts = vec![
        set.label(k),
        set.csv_row(k),
        set.code_label(code, k),
        set.build(code, 0),
        Ok(out),
    ];
    (texts, runs)
}

#[test]
fn calls_on_a_set_answer_on_eight_threads_as_they_do_alone() {
    let made = exact_set(&mut Rng::new(18), 200);
    let set = MainSet(made.set());
    let numbers = 0..30u64;
    let alone: Vec<_> = numbers.clone().map(|k| set_answers(set, k)).collect();
    thread::scope(|scope| {
        for _ in 0..8 {
            scope.spawn(|| {
                for (k, alone) in numbers.clone().zip(&alone) {
                    assert!(set_answers(set, k) == *alone, "{k}");
                }
            });
        }
    });
}

/// What the calls that only read a book answer about a number.
fn book_answers(book: &[u8], table: &[u8], k: u64) -> (Vec<Result<Vec<u8>, Refusal>>, Vec<u64>) {
    let code = b"AB1 ";
    let mut out = vec![0; 2_000];
    let mut runs = Vec::new();
    for listed in [
        ask::book_labels(book, table, k, 9, &mut out),
        ask::book_code_labels(book, table, code, k, 9, &mut out),
        ask::book_list(book, table, k, 9, &mut out),
        ask::book_code_list(book, table, code, k, 9, &mut out),
    ] {
        runs.push(listed.map_or(0, |run| run.bytes as u64));
    }
    runs.extend([ask::book(book), ask::book_live(book, code)].map(|count| count.unwrap_or(0)));
    let texts = vec![
        ask::book_label(book, table, k),
        ask::book_code_label(book, table, code, k),
        ask::book_build(book, table, code, 0),
        Ok(out),
    ];
    (texts, runs)
}

#[test]
fn calls_on_a_book_answer_on_eight_threads_as_they_do_alone() {
    let rng = &mut Rng::new(20);
    let pair = exact_pair(rng, 200, 2);
    let kept = book(rng, &pair.rows, 200);
    let numbers = 0..20u64;
    let ask = |k| book_answers(&kept, &pair.table, k);
    let alone: Vec<_> = numbers.clone().map(ask).collect();
    thread::scope(|scope| {
        for _ in 0..8 {
            scope.spawn(|| {
                for (k, alone) in numbers.clone().zip(&alone) {
                    assert!(ask(k) == *alone, "{k}");
                }
            });
        }
    });
}

#[test]
fn calls_on_eight_threads_answer_as_they_do_alone() {
    let pair = exact_pair(&mut Rng::new(17), 400, 400);
    let pack = ask::build(&pair.table, &pair.points, b"AB1 ", 0).expect("a pack");
    let numbers = 0..60u64;
    let csv = csv_file(&csv_rows(&mut Rng::new(19), 50));
    let ask = |k| answers(&pair.table, &pair.points, &pack, &csv, k);
    let alone: Vec<Answers> = numbers.clone().map(ask).collect();
    thread::scope(|scope| {
        for _ in 0..8 {
            scope.spawn(|| {
                for (k, alone) in numbers.clone().zip(&alone) {
                    assert!(ask(k) == *alone, "{k}");
                }
            });
        }
    });
}
