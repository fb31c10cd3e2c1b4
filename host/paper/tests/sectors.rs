//! Sectors: how many points each has, in packs of every edition; that the counts of
//! a trailer are those of its points; refusals.

use paper::make::{
    damaged_packs, full_draft, pack_draft, Edition, PackDraft, Rng, BUILT, EDITIONS,
};
use paper::{open, packed, sector, Refusal};

/// Numbers that are no inward digit, also where only some of their bits are read.
const NO_DIGITS: [u64; 8] = [
    10,
    b'0' as u64,
    b'9' as u64,
    255,
    256,
    1 << 32,
    (1 << 32) + 9,
    u64::MAX,
];

/// What each sector of a pack answers.
fn sectors(pack: &[u8]) -> [Result<u64, Refusal>; 10] {
    [0, 1, 2, 3, 4, 5, 6, 7, 8, 9].map(|digit| sector(pack, digit))
}

#[test]
fn every_edition_answers_what_its_points_are() {
    let mut seen = [0; 10];
    for seed in 0..1_000 {
        let draft = pack_draft(&mut Rng::new(seed), 30);
        let counts = draft.counts();
        for edition in EDITIONS {
            let draft = draft.clone();
            let pack = PackDraft { edition, ..draft }.bytes();
            assert_eq!(sectors(&pack), counts.map(|count| Ok(count.into())));
            assert_eq!(open(&pack), Ok(counts.iter().sum::<u32>() as usize));
        }
        (0..10).for_each(|digit| seen[digit] += counts[digit]);
    }
    assert!(seen.iter().all(|points| *points > 300), "{seen:?}");
}

#[test]
fn a_digit_above_9_is_27_behind_11() {
    for edition in EDITIONS {
        let pack = full_draft(edition).bytes();
        assert_eq!((sector(&pack, 0), sector(&pack, 9)), (Ok(1), Ok(2)));
        for digit in NO_DIGITS {
            assert_eq!(packed(sector(&pack, digit)), 27 << 56, "{digit}");
        }
    }
    for damaged in damaged_packs() {
        let refused = Err(Refusal::new(11, damaged.step));
        for digit in NO_DIGITS.into_iter().chain([0, 9]) {
            let answer = sector(&damaged.pack, digit);
            assert_eq!(answer, refused, "{digit}, {}", damaged.clause);
        }
    }
}

/// Every other byte at every place of the counts is step 4.
#[test]
fn every_byte_of_the_counts() {
    let sound = full_draft(BUILT).bytes();
    let counts = sound.len() - 41..sound.len() - 1;
    for at in counts {
        for byte in 0..=u8::MAX {
            let mut pack = sound.clone();
            pack[at] = byte;
            let same = byte == sound[at];
            let expected = same.then_some(3).ok_or(Refusal::new(11, 4));
            assert_eq!(open(&pack), expected, "{byte} at {at}");
        }
    }
}

/// The order of the steps: a point that is damaged too is told first.
#[test]
fn counts_are_looked_at_behind_all_points() {
    for damaged in damaged_packs() {
        let mut pack = damaged.pack;
        if Edition::of(&pack) == Some(BUILT) && matches!(damaged.step, 2 | 3) {
            let last_count = pack.len() - 2;
            pack[last_count] ^= 1;
            let expected = Err(Refusal::new(11, damaged.step));
            assert_eq!(open(&pack), expected, "{}", damaged.clause);
        }
    }
}
