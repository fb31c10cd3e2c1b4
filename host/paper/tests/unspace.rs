//! Identifiers of spaces rewritten: what changes and what stays, and that the
//! reader says of the rewritten files what it says of the files.

use paper::make::{
    archived, damaged_points, damaged_table, exact_pair, long_pair, padded, pair, scratch,
    space_points, space_table, worked_pair, End, Pair, Place, Rng,
};
use paper::{
    build, check_points, check_table, code_label, code_labels, code_list, codes, csv, label,
    labels, list, unspace_points, unspace_table, Refusal,
};
use std::fmt::Debug;

/// What a test of both kinds of files has to know.
struct Kind {
    /// Bytes of a record, and of an identifier.
    record: usize,
    identifier: usize,
    space: fn(&mut [u8], &[End]),
    unspace: fn(&mut [u8]) -> u64,
    check: fn(&[u8]) -> Result<usize, Refusal>,
}

const KINDS: [Kind; 2] = [
    Kind {
        record: 169,
        identifier: 9,
        space: space_table,
        unspace: unspace_table,
        check: check_table,
    },
    Kind {
        record: 168,
        identifier: 14,
        space: space_points,
        unspace: unspace_points,
        check: check_points,
    },
];

impl Kind {
    /// The file rewritten, of which the reader says what it says of the file.
    #[track_caller]
    fn rewritten(&self, file: &[u8]) -> Vec<u8> {
        let mut rewritten = file.to_vec();
        (self.unspace)(&mut rewritten);
        assert_eq!((self.check)(&rewritten), (self.check)(file));
        let mut again = rewritten.clone();
        assert_eq!((self.unspace)(&mut again), 0);
        assert_eq!(again, rewritten);
        rewritten
    }
}

/// The files of a pair, each with its kind.
fn files(pair: &Pair) -> [(&'static Kind, Vec<u8>); 2] {
    let [table, points] = &KINDS;
    [(table, pair.table.clone()), (points, pair.points.clone())]
}

#[test]
fn the_identifiers_of_spaces_are_rewritten_and_counted() {
    for (kind, proper) in files(&worked_pair()) {
        for ends in End::CHOICES {
            let mut file = proper.clone();
            (kind.space)(&mut file, ends);
            assert_ne!(file, proper);
            assert!((kind.check)(&file).is_ok());
            assert_eq!((kind.unspace)(&mut file), ends.len() as u64);
            assert_eq!(file, proper);
        }
        assert_eq!(kind.rewritten(&proper), proper);
    }
}

#[test]
fn an_identifier_with_another_byte_stays() {
    for (kind, proper) in files(&worked_pair()) {
        let trailer = proper.len() - kind.record;
        for start in [0, trailer] {
            for at in 0..kind.identifier {
                for byte in [0, 31, 33, b'0', 255] {
                    let mut file = proper.clone();
                    file[start..][..kind.identifier].fill(b' ');
                    file[start + at] = byte;
                    assert_eq!(kind.rewritten(&file), file);
                }
            }
        }
    }
}

#[test]
fn what_is_not_two_or_more_whole_records_stays() {
    for kind in &KINDS {
        for records in 0..4 {
            let whole = records * kind.record;
            for length in [whole.saturating_sub(1), whole, whole + 1] {
                let spaces = vec![b' '; length];
                let rewritten = kind.rewritten(&spaces);
                let is_rewritten = length == whole && records >= 2;
                assert_eq!(rewritten != spaces, is_rewritten, "{length}");
            }
        }
    }
}

#[test]
fn of_spaces_alone_header_and_trailer_change_and_no_other_byte() {
    for kind in &KINDS {
        for records in [2, 3, 7] {
            let rewritten = kind.rewritten(&vec![b' '; records * kind.record]);
            let trailer = rewritten.len() - kind.record;
            for (at, byte) in rewritten.into_iter().enumerate() {
                let expected = match at {
                    _ if at < kind.identifier => 0,
                    _ if (trailer..trailer + kind.identifier).contains(&at) => 255,
                    _ => b' ',
                };
                assert_eq!(byte, expected, "{at}");
            }
        }
    }
}

#[test]
fn a_file_of_more_than_20_000_records_is_rewritten_too() {
    let long = long_pair(&mut Rng::new(5), 20_100, 20_100, 40, false);
    for (kind, proper) in files(&long) {
        assert!(proper.len() > 20_000 * kind.record);
        let mut file = proper.clone();
        (kind.space)(&mut file, &[End::Header, End::Trailer]);
        assert_eq!(kind.rewritten(&file), proper);
    }
}

/// Every refusal of a file, also behind spaces.
#[test]
fn damaged_files_are_refused_as_before() {
    for seed in 0..40 {
        let rng = &mut Rng::new(seed);
        for number in 1..=6 {
            for place in Place::ALL {
                let damaged = [
                    damaged_table(rng, number, place),
                    damaged_points(rng, number, place),
                ];
                for (kind, damaged) in KINDS.iter().zip(damaged) {
                    let Some(mut file) = damaged.map(|damaged| damaged.file) else {
                        continue;
                    };
                    kind.rewritten(&file);
                    if file.len() >= kind.record {
                        (kind.space)(&mut file, End::chosen(rng));
                        kind.rewritten(&file);
                    }
                }
            }
        }
    }
}

#[test]
fn scratched_files_are_read_as_before() {
    let (mut accepted, mut refused) = (0, 0);
    for seed in 0..2_000 {
        let rng = &mut Rng::new(seed);
        let made = pair(rng, 12);
        for (kind, mut file) in files(&archived(rng, &made)) {
            scratch(rng, &mut file);
            let rewritten = kind.rewritten(&file);
            match (kind.check)(&rewritten) {
                Ok(_) => accepted += 1,
                Err(_) => refused += 1,
            }
        }
    }
    assert!(accepted > 100 && refused > 100, "{accepted} {refused}");
}

/// The files of an archived pair, as they are and rewritten.
struct Both {
    before: [Vec<u8>; 2],
    after: [Vec<u8>; 2],
}

impl Both {
    fn new(before: &Pair) -> Both {
        let before = [before.table.clone(), before.points.clone()];
        let mut after = before.clone();
        let rewritten = unspace_table(&mut after[0]) + unspace_points(&mut after[1]);
        assert!(rewritten > 0 && before != after);
        for [table, points] in [&before, &after] {
            assert!(check_table(table).is_ok() && check_points(points).is_ok());
        }
        Both { before, after }
    }

    /// Fails unless a call with so much room answers and leaves the same.
    #[track_caller]
    fn same<T: Debug + PartialEq>(
        &self,
        room: usize,
        ask: impl Fn(&[u8], &[u8], &mut [u8]) -> Result<T, Refusal>,
    ) {
        let asked = |[table, points]: &[Vec<u8>; 2]| {
            let mut out = vec![7; room];
            (ask(table, points, &mut out), out)
        };
        assert_eq!(asked(&self.before), asked(&self.after));
    }
}

/// What is asked of the archived files and of the rewritten ones is the same.
fn same_of_pair(rng: &mut Rng, before: &Pair) {
    let both = Both::new(before);
    let room = rng.below(600 * (before.views.len() + 1));
    both.same(room, |_, points, out| codes(points, out));
    for view in 0..=before.views.len() as u64 + 1 {
        let (first, count) = (view, 3);
        both.same(room, |t, p, out| label(t, p, view, out));
        both.same(room, |t, p, out| labels(t, p, first, count, out));
        both.same(room, |t, p, out| list(t, p, first, count, out));
        both.same(room, |t, p, out| csv::rows(t, p, first, count, out));
    }
    let codes = before.views.iter().map(|view| view.outward.as_str());
    for code in codes.chain(["ZE1", "QA1"]) {
        let code = &padded(code, 4);
        let k = rng.below(before.views.len() + 2) as u64;
        both.same(room, |t, p, out| code_label(t, p, code, k, out));
        both.same(room, |t, p, out| code_labels(t, p, code, k, 2, out));
        both.same(room, |t, p, out| code_list(t, p, code, k, 2, out));
        both.same(room, |t, p, out| build(t, p, code, out));
    }
}

#[test]
fn labels_runs_listings_rows_and_packs_of_archived_pairs_stay() {
    for seed in 0..200 {
        let rng = &mut Rng::new(seed);
        let made = pair(rng, 24);
        let before = archived(rng, &made);
        same_of_pair(rng, &before);
    }
    let rng = &mut Rng::new(8);
    let proper = exact_pair(rng, 300, 40);
    let before = archived(rng, &proper);
    same_of_pair(rng, &before);
}
