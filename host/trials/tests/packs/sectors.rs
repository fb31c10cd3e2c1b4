//! Sectors: what a trailer says and what counting gives are the same in each edition, every byte of the counts is looked
//! at, and 27 comes behind 11. That each sector has its views is tried beside the labels.

use paper::make::{full_draft, inward, pack_draft, Rng, BUILT, EDITIONS};
use trials::agree;
use trials::packs::{draft, in_edition, no_pack, resident, row, sectors, NO_DIGITS};

#[test]
fn each_edition_answers_what_its_points_are() {
    let mut rng = Rng::new(113);
    let mut seen = [0; 10];
    for _ in 0..400 {
        let draft = pack_draft(&mut rng, 30);
        let counts = draft.counts().map(u64::from);
        for edition in EDITIONS {
            assert_eq!(sectors(&in_edition(&draft, edition)), counts);
        }
        (0..10).for_each(|digit| seen[digit] += counts[digit]);
    }
    assert!(seen.iter().all(|points| *points > 100), "{seen:?}");
}

/// More points than a byte counts, and than two do, in random sectors and in one.
#[test]
fn many_points() {
    let mut rng = Rng::new(127);
    let town = [row(1, &["HOLT", "", ""])];
    let mut points = vec![resident(); 70_000];
    for point in &mut points[..700] {
        point.inward = inward(&mut rng);
    }
    for points in [&points[..700], &points] {
        let draft = draft(&town, points);
        let counts = draft.counts().map(u64::from);
        for edition in EDITIONS {
            assert_eq!(sectors(&in_edition(&draft, edition)), counts);
        }
    }
}

#[test]
fn every_byte_of_the_counts_to_every_value() {
    let sound = full_draft(BUILT).bytes();
    let end = sound.len() - 1;
    for at in end - 40..end {
        for byte in 0..=u8::MAX {
            let mut pack = sound.clone();
            pack[at] = byte;
            let expected = if byte == sound[at] { 3 } else { no_pack(4) };
            assert_eq!(agree::pack(&pack), expected, "{byte} at {at}");
        }
    }
}

/// 11, then 27: whatever the digit, a pack that is none is refused first.
#[test]
fn refusals_come_in_their_order() {
    for edition in EDITIONS {
        let mut pack = full_draft(edition).bytes();
        for digit in NO_DIGITS {
            assert_eq!(
                agree::sector(&pack, digit),
                27 << 56,
                "{digit}, {edition:?}"
            );
        }
        let last = pack.len() - 2;
        pack[last] ^= 1;
        let step = if edition.has_counts() { 4 } else { 1 };
        for digit in NO_DIGITS.into_iter().chain(0..10) {
            assert_eq!(agree::sector(&pack, digit), no_pack(step), "{digit}");
        }
    }
}
