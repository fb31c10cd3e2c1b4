//! CSV files that are damaged: the refusal of the whole, whatever is asked.

use paper::make::{csv_file, csv_rows, damaged_csv, full_csv_row, scratch, Rng};
use trials::csv::{ask, check};
use trials::rooms::refusal;

#[test]
fn every_damaged_file_has_its_refusal() {
    let damaged = damaged_csv(&mut Rng::new(821));
    assert!(damaged.len() > 800);
    for file in damaged {
        for row in [0, 1, 3, u64::MAX] {
            assert_eq!(ask(&file.csv, row), file.refusal.packed(), "{}", file.what);
        }
    }
}

/// Each byte value in front of, in and behind each field, and in its place.
#[test]
fn every_byte_in_every_field() {
    let full = full_csv_row();
    let mut reached = [0usize; 16];
    for field in 1..=16 {
        let text = full.0[field - 1].clone();
        for byte in 0..=255 {
            let middle = text.len() / 2;
            let inserted = [0, middle, text.len()].map(|at| {
                let mut text = text.clone();
                text.insert(at, byte);
                text
            });
            let replaced = [0, middle, text.len() - 1].map(|at| {
                let mut text = text.clone();
                text[at] = byte;
                text
            });
            let alone = [vec![byte]];
            let changed = inserted.iter().chain(&replaced).chain(&alone);
            for text in changed {
                let answer = check(&full.with(field, text).bytes());
                reached[refusal(answer) as usize] += 1;
            }
        }
    }
    for number in [0, 14, 15] {
        assert!(reached[number] > 1_000, "{number}: {reached:?}");
    }
}

/// Each field with so many bytes, around its limit: digits, and digits with spaces behind them.
#[test]
fn every_length_of_every_field() {
    let full = full_csv_row();
    for field in 1..=16 {
        for length in 0..=full.0[field - 1].len() + 3 {
            let digits = vec![b'7'; length];
            let mut padded = digits.clone();
            padded.iter_mut().skip(1).for_each(|byte| *byte = b' ');
            for text in [digits, padded, vec![b' '; length]] {
                for row in [&full, &full.with(14, b"S")] {
                    check(&row.with(field, &text).bytes());
                }
            }
        }
    }
}

/// A file cut off anywhere, without any one of its bytes, or with a byte of meaning anywhere.
#[test]
fn a_byte_more_or_less_anywhere() {
    let csv = csv_file(&csv_rows(&mut Rng::new(823), 3));
    for at in 0..=csv.len() {
        check(&csv[..at]);
        check(&csv[at..]);
        let mut less = csv.clone();
        less.splice(at..(at + 1).min(csv.len()), []);
        check(&less);
        for mark in [
            &b","[..],
            b"\"",
            b"\r",
            b"\n",
            b"\r\n",
            b"\n\r",
            b" ",
            b"x",
            b"\0",
            b"\xff",
        ] {
            let mut more = csv.clone();
            more.splice(at..at, mark.iter().copied());
            ask(&more, 2);
            let mut other = csv.clone();
            other.splice(at..(at + 1).min(csv.len()), mark.iter().copied());
            check(&other);
        }
    }
}

#[test]
fn scratched_files() {
    let mut rng = Rng::new(825);
    let mut reached = [0usize; 16];
    for _ in 0..3_000 {
        let rows = rng.below(6);
        let mut csv = csv_file(&csv_rows(&mut rng, rows));
        scratch(&mut rng, &mut csv);
        reached[refusal(ask(&csv, 1)) as usize] += 1;
    }
    assert!(reached[0] > 50 && reached[14] > 1_000, "{reached:?}");
}

/// Bytes of no meaning, and those that have one, in any order.
#[test]
fn random_bytes() {
    let mut rng = Rng::new(827);
    for _ in 0..3_000 {
        let length = rng.below(80);
        let marks = b",,,,,\r\n\r\n\" AB19ZSL";
        let bytes: Vec<u8> = match rng.below(2) {
            0 => (0..length).map(|_| rng.byte()).collect(),
            _ => (0..length).map(|_| *rng.pick(marks)).collect(),
        };
        ask(&bytes, 1);
    }
}
