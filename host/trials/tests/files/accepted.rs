//! Files that are accepted, of many sizes: every call, with every view number
//! and with codes of every sort.

use crate::{KINDS, POINTS, TABLE};
use paper::make::{
    bad_outward, exact_pair, outward, pair, point_file, worked_pair, Pair, Rng, View,
};
use paper::{packed, Refusal};
use std::collections::BTreeSet;
use trials::agree;

/// Letters that a code may have, may not have, or not at every place; digits,
/// padding, and what stands beside them in the code table.
const TELLING: &[u8] = b"ACILOQVXZ09 /:@[a\0\xff";

/// How often the answers of interest were given.
#[derive(Default, Debug)]
struct Seen {
    letters: usize,
    no_view: usize,
    codes_with_live: usize,
    codes_without: usize,
    bad_codes: usize,
}

/// Asks every call on an accepted pair.
fn ask_pair(rng: &mut Rng, pair: &Pair, seen: &mut Seen) {
    let point_records: usize = pair.views.iter().map(|view| view.records().len()).sum();
    TABLE.assert_taken(&pair.table, pair.rows.len() + 2);
    POINTS.assert_taken(&pair.points, point_records + 2);
    assert_eq!(agree::views(&pair.points), pair.views.len() as u64);
    ask_letters(pair, seen);
    ask_codes(rng, pair, seen);
    for code in malformed_codes(rng, pair) {
        let malformed = packed(Err(Refusal::new(12, 0)));
        assert_eq!(agree::live(&pair.points, &code), malformed, "{code:?}");
        seen.bad_codes += 1;
    }
}

/// Every view, and the numbers around and far behind them.
fn ask_letters(pair: &Pair, seen: &mut Seen) {
    for (number, view) in (1..).zip(&pair.views) {
        let letter = u64::from(view.letter);
        assert_eq!(agree::letter(&pair.points, number), letter);
        seen.letters += 1;
    }
    let behind = pair.views.len() as u64 + 1;
    for number in [0, behind, 1 << 32, (1 << 32) + 1, 1 << 63, u64::MAX] {
        let none = packed(Err(Refusal::new(7, 0)));
        assert_eq!(agree::letter(&pair.points, number), none);
        seen.no_view += 1;
    }
}

/// Every code that a view has, and some that probably none has.
fn ask_codes(rng: &mut Rng, pair: &Pair, seen: &mut Seen) {
    let mut codes: BTreeSet<Vec<u8>> = pair.views.iter().map(code_of).collect();
    codes.extend((0..8).map(|_| outward(rng)));
    for code in codes {
        let live = pair
            .views
            .iter()
            .filter(|view| view.is_live() && code_of(view) == code)
            .count();
        assert_eq!(agree::live(&pair.points, &code), live as u64, "{code:?}");
        match live {
            0 => seen.codes_without += 1,
            _ => seen.codes_with_live += 1,
        }
    }
}

fn code_of(view: &View) -> Vec<u8> {
    format!("{:4}", view.outward).into_bytes()
}

/// Malformed codes: of lengths 0 to 8 other than 4, and of 4 bytes.
fn malformed_codes(rng: &mut Rng, pair: &Pair) -> Vec<Vec<u8>> {
    let known = pair.views.first().map_or(b"AB1 ".to_vec(), code_of);
    let mut codes: Vec<Vec<u8>> = (0..12).map(|_| bad_outward(rng)).collect();
    codes.extend([vec![0; 4], vec![b' '; 4], vec![255; 4]]);
    for length in [0, 1, 2, 3, 5, 6, 7, 8] {
        let mut resized = known.clone();
        resized.resize(length, b' ');
        codes.push(resized);
        codes.push(known.iter().copied().cycle().take(length).collect());
        codes.push((0..length).map(|_| rng.byte()).collect());
    }
    codes
}

#[test]
fn random_pairs_of_many_sizes() {
    let mut seen = Seen::default();
    for seed in 0..500 {
        let rng = &mut Rng::new(seed);
        let largest = *rng.pick(&[2, 5, 12, 40, 160]);
        let pair = pair(rng, largest);
        ask_pair(rng, &pair, &mut seen);
    }
    println!("{seen:?}");
    assert!(seen.letters > 2_000 && seen.no_view > 2_000 && seen.bad_codes > 2_000);
    assert!(seen.codes_with_live > 300 && seen.codes_without > 2_000);
}

#[test]
fn exact_pairs_with_every_view() {
    let mut seen = Seen::default();
    let sizes = [
        (2, 2),
        (3, 3),
        (4, 4),
        (7, 5),
        (64, 65),
        (257, 256),
        (300, 513),
        (1_000, 1_000),
    ];
    for (table_records, point_records) in sizes {
        let rng = &mut Rng::new(point_records as u64);
        let pair = exact_pair(rng, table_records, point_records);
        assert_eq!(pair.table.len(), table_records * TABLE.record);
        assert_eq!(pair.points.len(), point_records * POINTS.record);
        ask_pair(rng, &pair, &mut seen);
    }
    println!("{seen:?}");
    assert!(seen.letters > 1_000);
}

#[test]
fn the_largest_pair_with_some_of_its_views() {
    let rng = &mut Rng::new(20_000);
    let pair = exact_pair(rng, 20_000, 20_000);
    TABLE.assert_taken(&pair.table, 20_000);
    POINTS.assert_taken(&pair.points, 20_000);
    let last = pair.views.len();
    assert_eq!(agree::views(&pair.points), last as u64);
    for number in [1, 2, last / 2, last - 1, last] {
        let letter = u64::from(pair.views[number - 1].letter);
        assert_eq!(agree::letter(&pair.points, number as u64), letter);
    }
    ask_codes(rng, &pair, &mut Seen::default());
}

#[test]
fn every_code_of_the_telling_alphabet() {
    let view = View {
        outward: "A0A".to_string(),
        ..View::default()
    };
    let points = point_file(&[view]);
    let mut counts = [0; 3];
    for &a in TELLING {
        for &b in TELLING {
            for &c in TELLING {
                for &d in TELLING {
                    match agree::live(&points, &[a, b, c, d]) {
                        live @ 0..=1 => counts[live as usize] += 1,
                        _ => counts[2] += 1,
                    }
                }
            }
        }
    }
    // First letters A C I L O Z, second A C L O Q V X, third A C V X, two digits:
    // AN 12, ANN 24, AAN 84, AANN 168, ANA 84, AANA 336; of these one has a view.
    let well_formed = 12 + 24 + 84 + 168 + 84 + 336;
    assert_eq!(counts[1], 1);
    assert_eq!(counts[0], well_formed - 1);
}

#[test]
fn the_bytes_around_a_file_do_not_count() {
    let pair = worked_pair();
    for (kind, file) in KINDS.iter().zip([&pair.table, &pair.points]) {
        let records = file.len() / kind.record;
        for start in 0..64 {
            for around in [0, b' ', b'1', 255] {
                let mut memory = vec![around; file.len() + 128];
                memory[start..start + file.len()].copy_from_slice(file);
                kind.assert_taken(&memory[start..start + file.len()], records);
                memory[start..start + file.len()].fill(around);
                assert!(memory.iter().all(|byte| *byte == around));
            }
        }
    }
}
