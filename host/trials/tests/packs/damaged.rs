//! Damaged packs: every byte to every value, bytes taken away and put in at every place, random bytes. What is expected
//! comes from the second program; the counts say that a trial reached what it is for.

use paper::make::{pack_draft, worked_pack, Edition, PackPoint, Rng, EDITIONS, FIRST};
use trials::packs::{ask, draft, in_edition, large_user, mend, no_pack, row, small_user};
use trials::rooms::refusal;

/// How often a pack was accepted, [0], and refused at each step.
#[derive(Default, Debug)]
struct Reached([usize; 5]);

impl Reached {
    /// Asks about a pack and counts the answer.
    #[track_caller]
    fn ask(&mut self, pack: &[u8]) {
        let answer = ask(pack);
        let step = if refusal(answer) == 0 {
            0
        } else {
            answer as u32
        };
        self.0[step as usize] += 1;
    }

    /// Fails where the answer never was one of these, 0 for accepted.
    #[track_caller]
    fn assert_all(&self, steps: &[usize]) {
        assert!(steps.iter().all(|step| self.0[*step] > 0), "{self:?}");
    }
}

/// A small user's organisation with both texts.
fn small_users_pack(edition: Edition) -> Vec<u8> {
    let rows = [row(1, &["HOLT", "", ""]), row(6, &["A", "B"])];
    in_edition(&draft(&rows, &[small_user(1)]), edition)
}

/// A large user's organisation without a name: one damage makes it a small user's, who has a key and would need one.
fn large_users_pack(edition: Edition) -> Vec<u8> {
    let rows = [row(1, &["HOLT", "ASH", "ELM"]), row(6, &["", "B"])];
    let point = PackPoint {
        organisation_key: 7,
        ..large_user(1)
    };
    in_edition(&draft(&rows, &[point]), edition)
}

/// Three packs of each edition.
fn small_packs() -> Vec<Vec<u8>> {
    let makers = [worked_pack, small_users_pack, large_users_pack];
    let of_edition = |edition| makers.map(|make| make(edition));
    let packs: Vec<Vec<u8>> = EDITIONS.into_iter().flat_map(of_edition).collect();
    packs.iter().for_each(|pack| assert_eq!(ask(pack), 1));
    packs
}

#[test]
fn every_byte_to_every_value() {
    for mut pack in small_packs() {
        let mut reached = Reached::default();
        let has_counts = Edition::of(&pack).is_some_and(Edition::has_counts);
        for place in 0..pack.len() {
            let before = pack[place];
            for value in 0..=255 {
                pack[place] = value;
                reached.ask(&pack);
            }
            pack[place] = before;
        }
        reached.assert_all(&[0, 1, 2, 3]);
        assert_eq!(reached.0[4] > 0, has_counts);
    }
}

#[test]
fn cut_at_every_length() {
    for pack in small_packs() {
        for length in 0..pack.len() {
            assert_eq!(ask(&pack[..length]), no_pack(1), "the first {length}");
            assert_eq!(ask(&pack[length + 1..]), no_pack(1), "behind {length}");
        }
    }
}

/// With a trailer that is true again the rows are looked at: they are a byte short, or one that isn't theirs is.
#[test]
fn a_byte_less_at_every_place() {
    let mut reached = Reached::default();
    for pack in small_packs() {
        for place in 0..pack.len() {
            let mut shorter = pack.clone();
            shorter.remove(place);
            assert_eq!(ask(&shorter), no_pack(1), "without byte {place}");
            mend(&mut shorter);
            reached.ask(&shorter);
        }
    }
    reached.assert_all(&[1, 2]);
}

#[test]
fn a_byte_more_at_every_place() {
    let mut reached = Reached::default();
    for pack in small_packs() {
        for place in 0..=pack.len() {
            for value in [0, 1, 6, 7, b' ', b'A', b'a', 255] {
                let mut longer = pack.clone();
                longer.insert(place, value);
                assert_eq!(ask(&longer), no_pack(1), "{value} before byte {place}");
                mend(&mut longer);
                reached.ask(&longer);
            }
        }
    }
    reached.assert_all(&[1, 2]);
}

/// A letter put into a text whose length byte counts it: the rows are sound, and those behind it have moved away from
/// their offsets. Behind the last there is none.
#[test]
fn a_letter_more_in_every_row() {
    let last = 40;
    for edition in EDITIONS {
        for length_byte in [1, 17, 25, 31, last] {
            let mut pack = worked_pack(edition);
            pack[length_byte] += 1;
            pack.insert(length_byte + 1, b'A');
            mend(&mut pack);
            let expected = if length_byte == last { 1 } else { no_pack(3) };
            assert_eq!(ask(&pack), expected, "byte {length_byte}");
        }
    }
}

/// Two damages at once, which may undo or hide each other, in packs of several rows and points.
#[test]
fn two_bytes_of_random_packs() {
    let mut rng = Rng::new(97);
    let mut reached = Reached::default();
    for _ in 0..20_000 {
        let mut pack = pack_draft(&mut rng, 6).bytes();
        for _ in 0..2 {
            let place = rng.below(pack.len());
            pack[place] = match rng.below(3) {
                0 => rng.byte(),
                1 => pack[place].wrapping_add(1),
                _ => pack[place].wrapping_sub(1),
            };
        }
        reached.ask(&pack);
    }
    reached.assert_all(&[0, 1, 2, 3, 4]);
}

fn random_bytes(rng: &mut Rng, length: usize) -> Vec<u8> {
    (0..length).map(|_| rng.byte()).collect()
}

#[test]
fn random_bytes_of_every_length() {
    let mut rng = Rng::new(101);
    for length in (0..1_000).chain([4_095, 4_096, 65_535, 65_536, 70_000]) {
        for _ in 0..5 {
            assert_eq!(refusal(ask(&random_bytes(&mut rng, length))), 11);
        }
    }
}

/// Random rows and points behind a true trailer, the row count low: the rows are low numbers and capitals, so that some
/// of them are sound.
#[test]
fn random_rows_and_points_with_a_true_trailer() {
    let mut rng = Rng::new(103);
    let mut reached = Reached::default();
    for _ in 0..60_000 {
        let length = rng.below(12);
        let mut pack: Vec<u8> = (0..length)
            .map(|_| *rng.pick(b"\x00\x00\x01\x01\x01\x02\x03\x04\x05\x06\x06\x07ABZ a"))
            .collect();
        let edition = rng.pick(&EDITIONS);
        let points = rng.below(2);
        pack.extend(random_bytes(&mut rng, edition.point * points));
        let rows = rng.below(4) as u8;
        pack.extend([0, 0, 0, rows, 0, 0, 0, 0, 0, 0, 0, points as u8]);
        pack.extend(b"AB1 \0\0\0\0");
        pack.extend(vec![0; edition.trailer - FIRST.trailer]);
        pack.push(edition.number);
        mend(&mut pack);
        reached.ask(&pack);
    }
    reached.assert_all(&[0, 2, 3]);
}
