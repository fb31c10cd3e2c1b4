//! Lent buffers: a refused call leaves them unwritten, an accepted one keeps
//! the bytes behind what it wrote.

use paper::make::{
    damaged_packs, damaged_points, damaged_table, full_draft, pair, worked_pair, Place, Rng, BUILT,
};
use paper::{build, code_label, label, label_of, pack_label, Refusal};

type Answer = Result<usize, Refusal>;

/// Lends a buffer of random bytes and looks at all of it afterwards.
fn lend(rng: &mut Rng, length: usize, call: impl Fn(&mut [u8]) -> Answer) -> Answer {
    let before: Vec<u8> = (0..length).map(|_| rng.byte()).collect();
    let mut after = before.clone();
    let answer = call(&mut after);
    match answer {
        Ok(written) => assert_eq!(after[written..], before[written..]),
        Err(_) => assert_eq!(after, before),
    }
    answer
}

#[test]
fn refused_files_leave_buffers_unwritten() {
    let good = worked_pair();
    let mut refused = [0; 7];
    for seed in 0..40 {
        let rng = &mut Rng::new(seed);
        for number in 1..=6 {
            for place in Place::ALL {
                let bad_table = damaged_table(rng, number, place);
                let bad_points = damaged_points(rng, number, place);
                let tables = bad_table.map(|damaged| (damaged.file, good.points.clone()));
                let points = bad_points.map(|damaged| (good.table.clone(), damaged.file));
                for (table, points) in tables.into_iter().chain(points) {
                    let code = b"AB1 ";
                    let label_answer = lend(rng, 499, |out| label(&table, &points, 1, out));
                    let code_answer =
                        lend(rng, 499, |out| code_label(&table, &points, code, 1, out));
                    let build_answer = lend(rng, 999, |out| build(&table, &points, code, out));
                    assert_eq!(label_answer.map_err(|why| why.number), Err(number));
                    assert_eq!(label_answer, code_answer);
                    assert_eq!(label_answer, build_answer);
                    refused[usize::from(number)] += 1;
                }
            }
        }
    }
    assert!(refused[1..].iter().all(|count| *count > 0), "{refused:?}");
}

#[test]
fn refused_packs_leave_buffers_unwritten() {
    let rng = &mut Rng::new(1);
    for damaged in damaged_packs() {
        let answer = lend(rng, 499, |out| pack_label(&damaged.pack, 1, out));
        assert_eq!(answer.map_err(|why| why.number), Err(11));
    }
}

#[test]
fn labels_of_every_view_keep_the_bytes_behind() {
    let (mut written, mut refused) = (0, 0);
    for seed in 0..500 {
        let rng = &mut Rng::new(seed);
        let pair = pair(rng, 30);
        for view in 0..=pair.views.len() as u64 + 1 {
            let whole = label_of(&pair.table, &pair.points, view);
            let needed = whole.as_ref().map_or(0, Vec::len);
            for length in [0, needed.saturating_sub(1), needed, needed + 1, 499] {
                let answer = lend(rng, length, |out| {
                    label(&pair.table, &pair.points, view, out)
                });
                match answer {
                    Ok(bytes) => {
                        assert!(bytes == needed && bytes <= length);
                        written += 1;
                    }
                    Err(why) if why.number == 10 => assert!(length < needed),
                    Err(why) => {
                        assert_eq!(whole, Err(why));
                        refused += 1;
                    }
                }
            }
        }
    }
    assert!(written > 1_000 && refused > 1_000);
}

#[test]
fn a_label_is_the_same_in_every_buffer_that_has_room() {
    let pack = full_draft(BUILT).bytes();
    for k in 1..=3 {
        let mut wide = [0; 499];
        let needed = pack_label(&pack, k, &mut wide).expect("a label");
        assert!(wide[needed..].iter().all(|byte| *byte == 0));
        for length in 0..needed {
            let room = Refusal {
                number: 10,
                file: 0,
                second: 0,
                detail: needed as u64,
            };
            assert_eq!(pack_label(&pack, k, &mut vec![0; length]), Err(room));
        }
        for length in needed..needed + 20 {
            let mut out = vec![0; length];
            assert_eq!(pack_label(&pack, k, &mut out), Ok(needed));
            assert_eq!(out[..needed], wide[..needed]);
        }
    }
}
