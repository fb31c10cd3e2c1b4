//! Labels, suffixes and sectors from packs, beside those of the files that the packs were built from.

use paper::make::{self, padded, Pair, Rng, View};
use trials::agree;
use trials::packs::{ask, built, codes, sectors, sectors_of, suffix_of};
use trials::rooms::{label_rooms, refusal};

/// Numbers that no pack has, also where only their last 32 bits are read.
const HUGE: [u64; 5] = [1 << 32, (1 << 32) + 1, 1 << 63, u64::MAX - 1, u64::MAX];

/// Fails unless the suffix of each point is that of its live view, and the sectors have the live views.
#[track_caller]
fn compare_suffixes_and_sectors(pair: &Pair, code: &[u8], pack: &[u8]) {
    let is_packed = |view: &&View| view.is_live() && padded(&view.outward, 4) == code;
    let views = pair.views.iter().filter(is_packed);
    assert_eq!(sectors(pack), sectors_of(views.clone()));
    for (k, view) in (1..).zip(views) {
        assert_eq!(agree::pack_suffix(pack, k), suffix_of(view), "{k}");
    }
}

#[test]
fn every_label_suffix_and_sector_is_the_one_of_the_files() {
    let mut points = 0;
    for seed in 1_000..2_200 {
        let pair = make::pair(&mut Rng::new(seed), 60);
        for code in codes(&pair) {
            let Some(pack) = built(&pair, &code) else {
                continue;
            };
            let count = agree::pack(&pack);
            assert_eq!(count, agree::live(&pair.points, &code));
            compare_suffixes_and_sectors(&pair, &code, &pack);
            for k in (0..=count + 1).chain(HUGE) {
                let answer = label_rooms(|room| agree::built_label(&pair, &code, &pack, k, room));
                let expected = if (1..=count).contains(&k) { 0 } else { 7 };
                assert_eq!(refusal(answer), expected, "{k} of {count}");
            }
            points += count;
        }
    }
    assert!(points > 3_000, "{points}");
}

#[test]
fn every_label_of_a_code_without_live_views_is_7() {
    let pair = make::pair(&mut Rng::new(79), 40);
    let code = b"DN55";
    let pack = built(&pair, code).expect("the pack of no view");
    assert_eq!(agree::pack(&pack), 0);
    for k in (0..3).chain(HUGE) {
        let answer = label_rooms(|room| agree::built_label(&pair, code, &pack, k, room));
        assert_eq!(answer, 7 << 56);
    }
}

#[test]
fn labels_suffixes_and_sectors_of_a_long_pack() {
    let pair = make::exact_pair(&mut Rng::new(83), 1_500, 1_500);
    let pack = built(&pair, b"AB1 ").expect("a pack");
    let count = agree::pack(&pack);
    assert!(count > 300, "{count}");
    compare_suffixes_and_sectors(&pair, b"AB1 ", &pack);
    for k in (0..=count + 1).step_by(40).chain([count, count + 1]) {
        label_rooms(|room| agree::built_label(&pair, b"AB1 ", &pack, k, room));
    }
}

/// Packs that no builder has made: unused and equal rows, rows in any order within their type.
#[test]
fn every_label_of_random_packs() {
    let mut rng = Rng::new(89);
    let mut points = 0;
    for _ in 0..1_500 {
        let pack = make::pack_draft(&mut rng, 25).bytes();
        let count = ask(&pack);
        assert_eq!(refusal(count), 0);
        points += count;
    }
    assert!(points > 1_000, "{points}");
}
