//! Runs of labels: from every number, so many, into buffers of every length, out of files and out of packs.

use paper::make::{self, Pair, Rng, BUILT};
use paper::{packed, Refusal};
use trials::around::{around, Around};
use trials::packs::{built, codes, draft, mend, resident, row};
use trials::runs::{code_labels, labels, pack_labels, Asked};
use trials::samples;
use ttw::{ask, calls};

/// Room for any label.
const LABEL: usize = 499;

#[test]
fn every_run_of_random_pairs() {
    let mut rng = Rng::new(201);
    let mut around = Around::new(LABEL);
    for _ in 0..120 {
        let pair = make::pair(&mut rng, 20);
        around.ask(&mut rng, pair.views.len() as u64, |asked| {
            labels(&pair.table, &pair.points, asked)
        });
    }
    around.reached(&[0, 7, 8, 9, 10]);
}

#[test]
fn every_run_of_every_code() {
    let mut around = Around::new(LABEL);
    around.ask_in_codes(&mut Rng::new(203), 60, |pair, code, asked| {
        code_labels(&pair.table, &pair.points, code, asked)
    });
    around.reached(&[0, 7, 8, 9, 10, 12]);
}

/// The answer of a run that stopped.
fn stopped(number: u8, detail: u64, written: u64) -> u64 {
    packed(Err(Refusal {
        second: written,
        ..Refusal::new(number, detail)
    }))
}

/// Views 35 to 39 of the samples are refused: 9 6, 9 1, 8 1, 8 2, 8 3.
#[test]
fn a_refused_view_stops_the_run_and_is_told() {
    let Pair { table, points, .. } = samples::pair();
    let run = |first, count| labels(&table, &points, Asked::new(first, count, 41 * LABEL));
    assert_eq!(run(1, 34), 34);
    for count in [35, 41, u64::MAX] {
        assert_eq!(run(1, count), stopped(9, 6, 34));
        assert_eq!(run(34, count), stopped(9, 6, 1));
        assert_eq!(run(35, count), stopped(9, 6, 0));
    }
    assert_eq!(run(36, 1), stopped(9, 1, 0));
    assert_eq!(run(37, 9), stopped(8, 1, 0));
    assert_eq!(run(39, 2), stopped(8, 3, 0));
    assert_eq!(run(40, 2), 2);
    assert_eq!(run(40, 3), stopped(7, 0, 2));
    for first in [0, 42, u64::MAX] {
        assert_eq!(run(first, 0), 0);
        assert_eq!(run(first, u64::MAX), stopped(7, 0, 0));
    }
}

/// What so many labels of these lengths answer in so much room.
fn in_room(lengths: &[usize], room: usize) -> u64 {
    let mut left = room;
    for (written, length) in (0..).zip(lengths) {
        if *length > left {
            return stopped(10, *length as u64, written);
        }
        left -= length;
    }
    lengths.len() as u64
}

/// Whatever the buffer's length, as many labels are written as fit, and the next says what it needs.
#[test]
fn buffers_of_every_length() {
    let pair = samples::labelled();
    let Pair {
        table,
        points,
        views,
        ..
    } = &pair;
    let pack = built(&pair, b"AB1 ").expect("a pack");
    let length = |view| ask::label(table, points, view).expect("a label").len();
    let all: Vec<usize> = (1..=views.len() as u64).map(length).collect();
    let in_pack = |k| ask::pack_label(&pack, k).expect("a label").len();
    let packed: Vec<usize> = (1..=ask::pack(&pack).expect("points"))
        .map(in_pack)
        .collect();
    assert!(all.len() > 30 && packed.len() > 30);
    for room in 0..=all.iter().sum::<usize>() + 2 {
        let asked = Asked::new(1, all.len() as u64, room);
        assert_eq!(labels(table, points, asked), in_room(&all, room));
        let asked = Asked::new(1, packed.len() as u64, room);
        let expected = in_room(&packed, room);
        assert_eq!(pack_labels(&pack, asked), expected);
        assert_eq!(code_labels(table, points, b"AB1 ", asked), expected);
    }
}

/// What is refused as a whole is refused whatever is asked for, even no label.
#[track_caller]
fn assert_whole(answer: u64, ask: impl Fn(Asked) -> u64) {
    for (first, count, room) in [
        (1, 1, LABEL),
        (0, 0, 0),
        (1, u64::MAX, 0),
        (u64::MAX, 2, 60),
    ] {
        assert_eq!(ask(Asked::new(first, count, room)), answer);
    }
}

#[test]
fn damaged_files_refuse_the_whole() {
    let mut rng = Rng::new(205);
    let mut blamed = [0usize; 3];
    for _ in 0..1_500 {
        let Pair {
            mut table,
            mut points,
            ..
        } = make::pair(&mut rng, 20);
        if rng.one_in(2) {
            make::scratch(&mut rng, &mut table);
        }
        make::scratch(&mut rng, &mut points);
        let one = calls::label(&table, &points, 1, &mut [0; LABEL]);
        let file = one >> 52 & 15;
        blamed[file as usize] += 1;
        if file == 0 {
            labels(&table, &points, Asked::new(1, 9, 999));
            continue;
        }
        assert_whole(one, |asked| labels(&table, &points, asked));
        for code in [b"AB1 ", b"ab1 "] {
            assert_whole(one, |asked| code_labels(&table, &points, code, asked));
        }
    }
    assert!(blamed.into_iter().all(|times| times > 100), "{blamed:?}");
}

#[test]
fn a_malformed_code_refuses_the_whole_behind_the_files() {
    let Pair { table, points, .. } = samples::pair();
    let mut rng = Rng::new(207);
    for _ in 0..200 {
        let code = make::bad_outward(&mut rng);
        let refused = |why, table: &[u8], points: &[u8]| {
            assert_whole(packed(Err(why)), |asked| {
                code_labels(table, points, &code, asked)
            });
        };
        refused(Refusal::new(12, 0), &table, &points);
        refused(Refusal::of_file(2, 1, 0), &table, &points[1..]);
        refused(Refusal::of_file(1, 1, 0), &table[1..], &points[1..]);
    }
}

#[test]
fn every_run_of_random_packs() {
    let mut rng = Rng::new(209);
    let mut around = Around::new(LABEL);
    for _ in 0..150 {
        let draft = make::pack_draft(&mut rng, 10);
        let (pack, numbers) = (draft.bytes(), draft.points.len() as u64);
        around.ask(&mut rng, numbers, |asked| pack_labels(&pack, asked));
    }
    around.reached(&[0, 7, 10]);
}

#[test]
fn damaged_packs_refuse_the_whole() {
    let packs = make::damaged_packs();
    assert!(packs.len() > 100);
    for damaged in packs {
        let refused = packed(Err(Refusal::new(11, damaged.step)));
        assert_whole(refused, |asked| pack_labels(&damaged.pack, asked));
    }
}

/// The run of a pack is that of the live views from which it was built: answer, buffer and bytes.
#[test]
fn a_pack_gives_the_run_of_its_files() {
    let mut rng = Rng::new(211);
    let mut runs = 0;
    for _ in 0..150 {
        let pair = make::pair(&mut rng, 30);
        for code in codes(&pair) {
            let Some(pack) = built(&pair, &code) else {
                continue;
            };
            let points = ask::pack(&pack).expect("it opens");
            for (first, count) in around(points) {
                let room = rng.below(LABEL * 4);
                let (mut packed, mut out) = (vec![7; room], vec![7; room]);
                let from_pack = ask::pack_labels(&pack, first, count, &mut packed);
                let Pair { table, points, .. } = &pair;
                let from_files = ask::code_labels(table, points, &code, first, count, &mut out);
                assert_eq!(from_pack, from_files);
                assert!(packed == out, "{count} from {first} in {room} bytes");
                runs += 1;
            }
        }
    }
    assert!(runs > 5_000, "{runs}");
}

/// All labels of the largest files in one call.
#[test]
fn a_run_over_the_largest_files() {
    let Pair {
        table,
        points,
        views,
        ..
    } = make::exact_pair(&mut Rng::new(8), 20_000, 20_000);
    let room = LABEL * views.len();
    let (mut ours, mut theirs) = (vec![7; room], vec![7; room]);
    let run = ask::labels(&table, &points, 1, u64::MAX, &mut ours).expect("accepted files");
    let plain = paper::labels(&table, &points, 1, u64::MAX, &mut theirs).expect("accepted files");
    assert_eq!((run.labels, run.bytes), (plain.labels, plain.bytes));
    assert_eq!(run.labels, views.len() as u64);
    assert_eq!(
        run.stop.map(|stop| (stop.number, stop.detail)),
        Some((7, 0))
    );
    assert!(ours == theirs, "the buffers differ");
}

/// A pack of one point so many times.
fn pack_of_many(points: u32) -> Vec<u8> {
    let one = draft(&[row(1, &["HOLT", "", ""])], &[resident()]).bytes();
    let start = one.len() - BUILT.trailer - BUILT.point;
    let (rows, rest) = one.split_at(start);
    let (point, trailer) = rest.split_at(BUILT.point);
    let mut pack = [rows, &point.repeat(points as usize), trailer].concat();
    let count = pack.len() - BUILT.trailer + 8;
    pack[count..count + 4].copy_from_slice(&points.to_be_bytes());
    let in_its_sector = pack.len() - 5;
    pack[in_its_sector..in_its_sector + 4].copy_from_slice(&points.to_be_bytes());
    mend(&mut pack);
    pack
}

/// The second detail has 20 bits; the bytes tell all.
#[test]
fn more_labels_than_the_second_detail_holds() {
    let points = (1 << 20) + 3;
    let pack = pack_of_many(points);
    let label = b"HOLT\nAB1 9ZZ\n";
    let mut out = vec![0; label.len() * (points as usize + 1)];
    let mut bytes = 0;
    let answer = calls::pack_labels(&pack, 1, u64::MAX, &mut out, &mut bytes);
    assert_eq!(answer, stopped(7, 0, 3));
    assert_eq!(bytes, label.len() as u64 * u64::from(points));
    assert!(out[..bytes as usize]
        .chunks(label.len())
        .all(|chunk| chunk == label));
    let answer = calls::pack_labels(&pack, 1, u64::from(points), &mut out, &mut bytes);
    assert_eq!(answer, u64::from(points));
}
