//! Files rewritten by the library beside the second program; and all that the library is asked of archived pairs, as they
//! are and rewritten, beside what the second program says of the archived ones.

use paper::make::{
    archived, damaged_points, damaged_table, exact_pair, long_pair, padded, pair, scratch,
    space_points, space_table, worked_pair, End, Pair, Place, Rng,
};
use paper::{packed, packed_run, Refusal, Run};
use std::hint::black_box;
use ttw::calls;

/// The two kinds of files.
const KINDS: [Kind; 2] = [
    Kind {
        record: 169,
        identifier: 9,
        space: space_table,
        library: calls::unspace_table,
        plain: paper::unspace_table,
        check: calls::table,
        plain_check: paper::check_table,
    },
    Kind {
        record: 168,
        identifier: 14,
        space: space_points,
        library: calls::unspace_points,
        plain: paper::unspace_points,
        check: calls::points,
        plain_check: paper::check_points,
    },
];

/// What a test of both kinds of files has to know.
struct Kind {
    /// Bytes of a record, and of an identifier.
    record: usize,
    identifier: usize,
    space: fn(&mut [u8], &[End]),
    library: fn(&mut [u8]) -> u64,
    plain: fn(&mut [u8]) -> u64,
    check: fn(&[u8]) -> u64,
    plain_check: fn(&[u8]) -> Result<usize, Refusal>,
}

/// Bytes before and behind a lent file that no call may touch.
const AROUND: [u8; 40] = [b' '; 40];

impl Kind {
    /// The file as both programs rewrite it, and how many identifiers were. What stands around it stays, rewriting once
    /// more changes nothing, and the library says of it and of the file what the second program says of the file.
    #[track_caller]
    fn rewritten(&self, file: &[u8]) -> (Vec<u8>, u64) {
        let mut memory = [&AROUND, file, &AROUND].concat();
        let lent = AROUND.len()..AROUND.len() + file.len();
        let mut expected = file.to_vec();
        let count = (self.plain)(&mut expected);
        for times in [count, 0] {
            let answer = (self.library)(&mut memory[lent.clone()]);
            assert_eq!(answer, times);
            let wanted = [&AROUND, &expected[..], &AROUND].concat();
            assert!(*black_box(&memory) == wanted, "{} bytes", file.len());
        }
        let answer = packed((self.plain_check)(file).map(|records| records as u64));
        assert_eq!((self.check)(file), answer);
        assert_eq!((self.check)(&expected), answer);
        (expected, count)
    }
}

/// The files of a pair, each with its kind.
fn files(pair: &Pair) -> [(&'static Kind, Vec<u8>); 2] {
    let [table, points] = &KINDS;
    [(table, pair.table.clone()), (points, pair.points.clone())]
}

#[test]
fn spaces_of_every_length_up_to_four_records() {
    for kind in &KINDS {
        for length in 0..=4 * kind.record {
            let (_, count) = kind.rewritten(&vec![b' '; length]);
            let whole = length >= 2 * kind.record && length.is_multiple_of(kind.record);
            assert_eq!(count, if whole { 2 } else { 0 }, "{length}");
        }
    }
}

#[test]
fn no_bytes_one_record_two_and_many() {
    for records in [0, 1, 2, 3, 300, 20_000, 20_001, 40_000] {
        let made = long_pair(&mut Rng::new(7), records, records, 40, false);
        for (kind, proper) in files(&made) {
            for ends in End::CHOICES {
                let mut file = proper.clone();
                (kind.space)(&mut file, ends);
                assert_eq!(kind.rewritten(&file), (proper.clone(), ends.len() as u64));
                file.truncate(file.len() - 1);
                assert_eq!(kind.rewritten(&file), (file.clone(), 0));
                file.truncate(kind.record);
                assert_eq!(kind.rewritten(&file), (file.clone(), 0));
            }
            assert_eq!(kind.rewritten(&proper), (proper, 0));
        }
    }
}

/// Every identifier that is spaces but for one place.
#[test]
fn identifiers_that_are_partly_spaces_stay() {
    for (kind, proper) in files(&worked_pair()) {
        for start in [0, proper.len() - kind.record] {
            for at in 0..kind.identifier {
                for byte in 0..=255 {
                    let mut file = proper.clone();
                    file[start..][..kind.identifier].fill(b' ');
                    file[start + at] = byte;
                    let (rewritten, count) = kind.rewritten(&file);
                    assert_eq!(count, u64::from(byte == b' '));
                    assert_eq!(rewritten != file, byte == b' ');
                }
            }
        }
    }
}

#[test]
fn damaged_files_with_spaces_and_without() {
    let mut rewritten = [0; 3];
    for seed in 0..40 {
        let rng = &mut Rng::new(seed);
        for number in 1..=6 {
            for place in Place::ALL {
                let damaged = [
                    damaged_table(rng, number, place),
                    damaged_points(rng, number, place),
                ];
                for (kind, damaged) in KINDS.iter().zip(damaged) {
                    let Some(mut file) = damaged.map(|damaged| damaged.file) else {
                        continue;
                    };
                    rewritten[kind.rewritten(&file).1 as usize] += 1;
                    if file.len() >= kind.record {
                        (kind.space)(&mut file, End::chosen(rng));
                        rewritten[kind.rewritten(&file).1 as usize] += 1;
                    }
                }
            }
        }
    }
    assert!(rewritten.iter().all(|times| *times > 100), "{rewritten:?}");
}

#[test]
fn scratched_archives() {
    for seed in 0..2_000 {
        let rng = &mut Rng::new(seed);
        let made = pair(rng, 12);
        for (kind, mut file) in files(&archived(rng, &made)) {
            scratch(rng, &mut file);
            kind.rewritten(&file);
        }
    }
}

/// The files of an archived pair, as they are and as the library rewrites them.
struct Both {
    before: [Vec<u8>; 2],
    after: [Vec<u8>; 2],
}

/// Bytes of a buffer as a call finds them.
const FOUND: u8 = 0xA5;

impl Both {
    fn new(pair: &Pair) -> Both {
        let before = [pair.table.clone(), pair.points.clone()];
        let mut after = before.clone();
        let [table, points] = &mut after;
        let rewritten = calls::unspace_table(table) + calls::unspace_points(points);
        assert!(rewritten > 0 && before != after);
        for [table, points] in [&before, &after] {
            assert!(calls::table(table) >> 56 == 0 && calls::points(points) >> 56 == 0);
        }
        Both { before, after }
    }

    /// Fails unless the library writes and answers of the files, as they are and rewritten, what the second program writes
    /// and answers of them as they are.
    #[track_caller]
    fn same(
        &self,
        room: usize,
        library: impl Fn(&[u8], &[u8], &mut [u8]) -> u64,
        plain: impl FnOnce(&[u8], &[u8], &mut [u8]) -> Result<usize, Refusal>,
    ) {
        let mut theirs = vec![FOUND; room];
        let [table, points] = &self.before;
        let expected = plain(table, points, &mut theirs).map(|value| value as u64);
        for [table, points] in [&self.before, &self.after] {
            let mut ours = vec![FOUND; room];
            assert_eq!(library(table, points, &mut ours), packed(expected));
            assert!(ours == theirs, "the buffers differ");
        }
    }

    /// The same for a run or a listing.
    #[track_caller]
    fn same_run(
        &self,
        room: usize,
        library: impl Fn(&[u8], &[u8], &mut [u8], &mut u64) -> u64,
        plain: impl FnOnce(&[u8], &[u8], &mut [u8]) -> Result<Run, Refusal>,
    ) {
        let (mut theirs, mut expected_bytes) = (vec![FOUND; room], 7);
        let [table, points] = &self.before;
        let expected = packed_run(plain(table, points, &mut theirs), &mut expected_bytes);
        for [table, points] in [&self.before, &self.after] {
            let (mut ours, mut bytes) = (vec![FOUND; room], 7);
            let answer = library(table, points, &mut ours, &mut bytes);
            assert_eq!((answer, bytes), (expected, expected_bytes));
            assert!(ours == theirs, "the buffers differ");
        }
    }

    /// Labels, runs, listings and rows from a number on.
    fn ask_views(&self, view: u64, count: u64, room: usize) {
        self.same(
            room,
            |table, points, out| calls::label(table, points, view, out),
            |table, points, out| paper::label(table, points, view, out),
        );
        self.same_run(
            room,
            |table, points, out, bytes| calls::labels(table, points, view, count, out, bytes),
            |table, points, out| paper::labels(table, points, view, count, out),
        );
        self.same_run(
            room,
            |table, points, out, bytes| calls::list(table, points, view, count, out, bytes),
            |table, points, out| paper::list(table, points, view, count, out),
        );
        self.same_run(
            room,
            |table, points, out, bytes| calls::csv_rows(table, points, view, count, out, bytes),
            |table, points, out| paper::csv::rows(table, points, view, count, out),
        );
    }

    /// The same in a code, and its pack.
    fn ask_code(&self, code: &[u8], k: u64, count: u64, room: usize) {
        self.same(
            room,
            |table, points, out| calls::code_label(table, points, code, k, out),
            |table, points, out| paper::code_label(table, points, code, k, out),
        );
        self.same_run(
            room,
            |table, points, out, bytes| {
                calls::code_labels(table, points, code, k, count, out, bytes)
            },
            |table, points, out| paper::code_labels(table, points, code, k, count, out),
        );
        self.same_run(
            room,
            |table, points, out, bytes| calls::code_list(table, points, code, k, count, out, bytes),
            |table, points, out| paper::code_list(table, points, code, k, count, out),
        );
        self.same(
            room,
            |table, points, out| calls::build(table, points, code, out),
            |table, points, out| paper::build(table, points, code, out),
        );
    }
}

/// All that is asked of an archived pair.
fn ask_all(rng: &mut Rng, pair: &Pair, codes: &[Vec<u8>]) {
    let both = Both::new(pair);
    let views = pair.views.len() as u64;
    let all = 600 * (pair.views.len() + 1);
    for room in [rng.below(700), all] {
        both.same(
            room,
            |_, points, out| calls::codes(points, out),
            |_, points, out| paper::codes(points, out),
        );
        both.ask_views(1, u64::MAX, room);
        for _ in 0..8 {
            let view = rng.below(pair.views.len() + 2) as u64;
            both.ask_views(view, 3, room);
        }
        for code in codes {
            both.ask_code(code, 1, views, room);
            both.ask_code(code, rng.below(5) as u64, 2, room);
        }
    }
}

/// The codes of a pair, one that it has not, and a malformed one.
fn codes_of(pair: &Pair) -> Vec<Vec<u8>> {
    let codes = pair.views.iter().map(|view| view.outward.as_str());
    let mut codes: Vec<Vec<u8>> = codes
        .chain(["ZE1", "QA1"])
        .map(|code| padded(code, 4))
        .collect();
    codes.sort();
    codes.dedup();
    codes
}

#[test]
fn archived_pairs_say_the_same_once_rewritten() {
    for seed in 0..300 {
        let rng = &mut Rng::new(seed);
        let made = pair(rng, 40);
        let before = archived(rng, &made);
        ask_all(rng, &before, &codes_of(&before));
    }
}

#[test]
fn the_longest_archived_pair_says_the_same_once_rewritten() {
    let rng = &mut Rng::new(9);
    let proper = exact_pair(rng, 20_000, 20_000);
    let before = archived(rng, &proper);
    let both = Both::new(&before);
    let room = 1 << 20;
    both.ask_views(1, 1_000, room);
    both.ask_views(9_000, 1_000, room);
    both.ask_code(b"AB1 ", 1, 1_000, room);
}
