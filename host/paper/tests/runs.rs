//! Runs of labels: equal to asking for each in turn, in buffers of every length.

use paper::make::{bad_outward, damaged_packs, full_draft, pair, worked_pair, Pair, Rng, BUILT};
use paper::{code_label, code_labels, label, labels, pack_label, pack_labels, packed_run};
use paper::{Refusal, Run};

/// What a buffer holds before a run.
const BEFORE: u8 = 0xA5;

/// The same labels asked for one by one, each behind those before it; none of
/// these calls may refuse the whole.
fn in_turn(
    first: u64,
    count: u64,
    out: &mut [u8],
    one: impl Fn(u64, &mut [u8]) -> Result<usize, Refusal>,
) -> Run {
    let mut bytes = 0;
    for written in 0..count {
        match one(first + written, &mut out[bytes..]) {
            Ok(length) => bytes += length,
            Err(why) => {
                return Run {
                    labels: written,
                    bytes,
                    stop: Some(why),
                }
            }
        }
    }
    Run {
        labels: count,
        bytes,
        stop: None,
    }
}

/// Runs and single calls from every number around those that there are, as many
/// labels as there are and more, in a buffer of that length.
#[track_caller]
fn compare(
    numbers: u64,
    room: usize,
    run: impl Fn(u64, u64, &mut [u8]) -> Result<Run, Refusal>,
    one: impl Fn(u64, &mut [u8]) -> Result<usize, Refusal>,
) {
    for first in (0..=numbers + 1).chain([u64::MAX]) {
        for count in (0..=numbers + 1).chain([u64::MAX]) {
            let (mut ours, mut turned) = (vec![BEFORE; room], vec![BEFORE; room]);
            let answer = run(first, count, &mut ours);
            assert_eq!(answer, Ok(in_turn(first, count, &mut turned, &one)));
            assert!(ours == turned, "{count} from {first} in {room} bytes");
        }
    }
}

#[test]
fn a_run_is_each_label_in_turn() {
    for seed in 0..150 {
        let rng = &mut Rng::new(seed);
        let Pair {
            table,
            points,
            views,
            ..
        } = &pair(rng, 20);
        let numbers = views.len() as u64;
        for room in [0, rng.below(400), 499 * 12] {
            compare(
                numbers,
                room,
                |first, count, out| labels(table, points, first, count, out),
                |view, out| label(table, points, view, out),
            );
            for code in views.iter().map(|view| format!("{:<4}", view.outward)) {
                let code = code.as_bytes();
                compare(
                    numbers,
                    room,
                    |first, count, out| code_labels(table, points, code, first, count, out),
                    |k, out| code_label(table, points, code, k, out),
                );
            }
        }
    }
}

#[test]
fn a_run_over_a_pack_in_every_room() {
    let pack = full_draft(BUILT).bytes();
    let mut all = [BEFORE; 3 * 499];
    let whole = pack_labels(&pack, 1, 3, &mut all).expect("a run");
    assert_eq!((whole.labels, whole.stop), (3, None));
    assert!(whole.bytes > 100 && all[whole.bytes..].iter().all(|byte| *byte == BEFORE));
    for room in 0..whole.bytes + 2 {
        compare(
            3,
            room,
            |first, count, out| pack_labels(&pack, first, count, out),
            |k, out| pack_label(&pack, k, out),
        );
    }
}

/// Document 01's pair: view 1 has a label of 52 bytes, view 2 is refused with 9,
/// field 6.
#[test]
fn the_worked_pair_as_numbers() {
    let pair = worked_pair();
    let told = |first, count, room: usize| {
        let mut bytes = 4711;
        let run = labels(&pair.table, &pair.points, first, count, &mut vec![0; room]);
        (packed_run(run, &mut bytes), bytes)
    };
    assert_eq!(told(1, 1, 52), (1, 52));
    assert_eq!(told(1, 0, 0), (0, 0));
    assert_eq!(told(1, 2, 52), (9 << 56 | 1 << 32 | 6, 52));
    assert_eq!(told(2, 1, 52), (9 << 56 | 6, 0));
    assert_eq!(told(1, 2, 51), (10 << 56 | 52, 0));
    assert_eq!(told(3, 9, 52), (7 << 56, 0));
    assert_eq!(told(0, 1, 52), (7 << 56, 0));
}

/// The second detail has 20 bits: of more labels than these hold, the last.
#[test]
fn more_labels_than_the_second_detail_holds() {
    let run = Run {
        labels: (1 << 20) + 3,
        bytes: 1 << 40,
        stop: Some(Refusal::new(10, 52)),
    };
    let mut bytes = 0;
    assert_eq!(packed_run(Ok(run), &mut bytes), 10 << 56 | 3 << 32 | 52);
    assert_eq!(bytes, 1 << 40);
}

/// Fails where a run that is refused as a whole wrote anything.
#[track_caller]
fn assert_whole(expected: Refusal, run: impl Fn(u64, u64, &mut [u8]) -> Result<Run, Refusal>) {
    for (first, count) in [(1, 1), (0, 0), (1, u64::MAX), (u64::MAX, 3)] {
        let mut out = [BEFORE; 600];
        let mut bytes = 4711;
        let answer = packed_run(run(first, count, &mut out), &mut bytes);
        assert_eq!((answer, bytes), (expected.packed(), 4711));
        assert_eq!(out, [BEFORE; 600]);
    }
}

#[test]
fn a_refused_file_refuses_the_whole() {
    let Pair { table, points, .. } = &worked_pair();
    for (file, table, points) in [(1, &table[1..], &points[1..]), (2, table, &points[1..])] {
        let refused = Refusal::of_file(file, 1, 0);
        assert_whole(refused, |first, count, out| {
            labels(table, points, first, count, out)
        });
        assert_whole(refused, |first, count, out| {
            code_labels(table, points, b"QA1 ", first, count, out)
        });
    }
}

#[test]
fn a_malformed_code_refuses_the_whole() {
    let Pair { table, points, .. } = &worked_pair();
    let rng = &mut Rng::new(3);
    for code in (0..50).map(|_| bad_outward(rng)) {
        assert_whole(Refusal::new(12, 0), |first, count, out| {
            code_labels(table, points, &code, first, count, out)
        });
    }
}

#[test]
fn a_damaged_pack_refuses_the_whole() {
    for damaged in damaged_packs() {
        assert_whole(Refusal::new(11, damaged.step), |first, count, out| {
            pack_labels(&damaged.pack, first, count, out)
        });
    }
}
