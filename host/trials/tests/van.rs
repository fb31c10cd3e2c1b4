//! Labels folded for the van printer: the van library against the second program, answer and buffer.

use paper::make::{self, Rng};
use trials::packs::{built, codes};
use trials::rooms::refusal;
use trials::{agree, van};

/// What is folded with no room, with room around the bytes needed and with more: the last answer. 21 comes before 10, so
/// that it has to be the same whatever is lent.
#[track_caller]
fn rooms(ask: impl Fn(usize) -> u64) -> u64 {
    let unlent = ask(0);
    if refusal(unlent) != 10 {
        assert_eq!(ask(300), unlent);
        return unlent;
    }
    let needed = unlent as u32 as usize;
    assert!((1..=222).contains(&needed));
    assert_eq!(ask(needed - 1), unlent);
    for room in [needed, needed + 1, 300] {
        assert_eq!(ask(room), needed as u64);
    }
    needed as u64
}

/// How often each refusal was answered, 0 for a value.
#[derive(Default)]
struct Reached([usize; 28]);

impl Reached {
    fn count(&mut self, answer: u64) {
        self.0[refusal(answer) as usize] += 1;
    }

    #[track_caller]
    fn has(&self, numbers: &[usize]) {
        for number in numbers {
            assert!(self.0[*number] > 0, "no answer was {number}");
        }
    }
}

#[test]
fn any_bytes() {
    let mut rng = Rng::new(211);
    let mut reached = Reached::default();
    for turn in 0..30_000 {
        let length = rng.below(if turn % 10 == 0 { 2_000 } else { 200 });
        let letters: &[u8] = [
            &b"A B\n"[..],
            b"ABCDEFGHIJ ",
            b"ABCDEFGHIJKLMNOPQR\n ",
            b"A",
        ][turn % 4];
        let label: Vec<u8> = (0..length).map(|_| *rng.pick(letters)).collect();
        reached.count(rooms(|room| van::fold(&label, room)));
    }
    for length in 0..=300 {
        rooms(|room| van::fold(&vec![b'A'; length], room));
        rooms(|room| van::fold(&vec![b' '; length], room));
        rooms(|room| van::fold(&vec![10; length], room));
    }
    reached.has(&[0, 21]);
}

#[test]
fn every_view_of_random_pairs_and_every_point_of_their_packs() {
    let mut rng = Rng::new(223);
    let mut reached = Reached::default();
    for _ in 0..250 {
        let pair = make::pair(&mut rng, 60);
        let (table, points) = (&pair.table, &pair.points);
        let views = agree::views(points);
        for view in (0..=views + 1).chain([u64::MAX]) {
            reached.count(rooms(|room| van::label(table, points, view, room)));
        }
        for code in codes(&pair) {
            let live = agree::live(points, &code);
            let pack = built(&pair, &code);
            for k in 0..=live + 1 {
                let answer = rooms(|room| van::code_label(table, points, &code, k, room));
                if let Some(pack) = &pack {
                    assert_eq!(rooms(|room| van::pack_label(pack, k, room)), answer);
                }
            }
        }
        reached.count(rooms(|room| van::code_label(table, points, b"AB", 1, room)));
        reached.count(rooms(|room| van::label(points, table, 1, room)));
        reached.count(rooms(|room| van::pack_label(table, 1, room)));
    }
    reached.has(&[0, 7, 8, 9, 11, 12, 21]);
}

#[test]
fn every_view_of_random_sets() {
    let mut rng = Rng::new(227);
    let mut reached = Reached::default();
    for _ in 0..60 {
        let made = make::main_set(&mut rng, 40);
        let set = made.set();
        let views = paper::mainfile::views(set).expect("a set that is accepted") as u64;
        for view in 0..=views + 1 {
            reached.count(rooms(|room| van::main_label(set, view, room)));
        }
        let code = make::outward(&mut rng);
        for code in [&code[..], b"AB"] {
            for k in 0..3 {
                reached.count(rooms(|room| van::main_code_label(set, code, k, room)));
            }
        }
        let mut broken = set;
        broken[3] = &set[3][1..];
        reached.count(rooms(|room| van::main_label(broken, 1, room)));
    }
    reached.has(&[0, 1, 7, 12]);
}
