//! Suffixes: of every two bytes a digit and a letter alone, and 13 in edition 1. That each is its view's is tried beside
//! the labels.

use paper::make::{EDITIONS, FIRST};
use trials::agree;
use trials::packs::{draft, in_edition, no_pack, resident, row};

/// In the last of three points, so that no other is looked at in its place.
#[test]
fn every_suffix_of_two_bytes() {
    let mut draft = draft(&[row(1, &["HOLT", "", ""])], &vec![resident(); 3]);
    let mut opened = 0;
    for number in 0..=u16::MAX {
        let suffix = number.to_be_bytes();
        draft.points[2].suffix = suffix.to_vec();
        let pack = draft.bytes();
        let sound = matches!(suffix, [b'0'..=b'9', b'A'..=b'Z']);
        let (points, told) = match sound {
            true => (3, u64::from(number)),
            false => (no_pack(3), no_pack(3)),
        };
        assert_eq!(agree::pack(&pack), points, "{number}");
        assert_eq!(agree::pack_suffix(&pack, 3), told, "{number}");
        opened += usize::from(sound);
    }
    assert_eq!(opened, 260);
}

/// 11, 7, then 13: whatever the number, a pack that is none is refused first, and a point that there is none of before
/// the edition is.
#[test]
fn refusals_come_in_their_order() {
    let draft = draft(&[row(1, &["HOLT", "", ""])], &vec![resident(); 2]);
    for edition in EDITIONS {
        let mut pack = in_edition(&draft, edition);
        for k in [0, 3, 1 << 32, (1 << 32) + 1, 1 << 63, u64::MAX] {
            assert_eq!(agree::pack_suffix(&pack, k), 7 << 56, "{k}, {edition:?}");
        }
        for k in [1, 2] {
            let told = match edition {
                FIRST => 13 << 56,
                _ => 12_609,
            };
            assert_eq!(agree::pack_suffix(&pack, k), told, "{k}, {edition:?}");
        }
        pack[0] = 0;
        for k in [0, 1, 3, u64::MAX] {
            assert_eq!(agree::pack_suffix(&pack, k), no_pack(2), "{k}");
        }
    }
}
