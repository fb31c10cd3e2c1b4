//! The follower rules: which view needs which record next, and whose refusal it
//! is where that record is another one, malformed or out of sequence.

use crate::POINTS;
use paper::make::{point_file_of, View};

type Record = Vec<u8>;

/// A point file of these records with so many plain views before and behind.
fn placed(before: u32, records: &[Record], behind: u32) -> Vec<u8> {
    let plain = |date| View {
        date,
        ..View::default()
    };
    let before = (0..before).map(|day| plain(20_100_101 + day).record());
    let behind = (0..behind).map(|day| plain(20_120_101 + day).record());
    let all: Vec<Record> = before
        .chain(records.iter().cloned())
        .chain(behind)
        .collect();
    point_file_of(&all)
}

/// Fails where these records aren't taken, wherever they stand in a file.
#[track_caller]
fn assert_taken(records: &[Record]) {
    for (before, behind) in PLACES {
        let file = placed(before, records, behind);
        POINTS.assert_taken(&file, 2 + (before + behind) as usize + records.len());
    }
}

/// Fails where these records aren't refused with that number at that one of
/// them (0 is the first), wherever they stand in a file.
#[track_caller]
fn assert_refused(records: &[Record], number: u8, index: usize) {
    for (before, behind) in PLACES {
        let file = placed(before, records, behind);
        POINTS.assert_refused(&file, number, 2 + before as usize + index);
    }
}

/// Fails where that one of these records isn't refused as malformed at that
/// byte, wherever they stand in a file.
#[track_caller]
fn assert_malformed(records: &[Record], index: usize, byte: usize) {
    for (before, behind) in PLACES {
        let file = placed(before, records, behind);
        POINTS.assert_malformed(&file, 2 + before as usize + index, byte);
    }
}

/// How many plain views stand before and behind the records of a test.
const PLACES: [(u32, u32); 7] = [(0, 0), (0, 1), (1, 0), (1, 1), (0, 3), (3, 0), (3, 3)];

/// Small users with organisation keys in which one digit alone isn't zero, and
/// large users with and without a key; each with the follower that it needs.
fn owners() -> Vec<View> {
    let keys = (0..8).map(|place| 10u32.pow(place));
    let mut owners: Vec<View> = keys
        .chain([7, 99_999_999])
        .map(|key| View::default().small_user(key, "LEDA", "STORES"))
        .collect();
    owners.extend([0, 5].map(|organisation_key| View {
        organisation_key,
        ..View::default().large_user("LEDA", "STORES")
    }));
    owners
}

#[test]
fn views_with_what_they_need_are_taken() {
    assert_taken(&[]);
    for indicator in *b"Y " {
        let alone = View {
            indicator,
            ..View::default()
        };
        assert_taken(&alone.records());
        for owner in owners() {
            let owner = View { indicator, ..owner };
            assert_taken(&owner.records());
        }
    }
    assert_taken(&View::default().large_user("", "").records());
    assert_taken(&View::default().large_user("", "STORES").records());
}

#[test]
fn owners_behind_one_another_are_taken() {
    let owners = (1..).zip(owners()).map(|(address_key, owner)| View {
        address_key,
        date: 20_110_901 + address_key,
        ..owner
    });
    let records: Vec<Record> = owners.flat_map(|owner| owner.records()).collect();
    assert_taken(&records);
    for missing in 0..records.len() / 2 {
        let mut lacking = records.clone();
        lacking.remove(2 * missing + 1);
        assert_refused(&lacking, 6, 2 * missing);
        let mut stray = records.clone();
        stray.remove(2 * missing);
        assert_refused(&stray, 6, 2 * missing);
    }
}

#[test]
fn an_owner_alone_lacks_its_follower() {
    for owner in owners() {
        assert_refused(&[owner.record()], 6, 0);
    }
}

#[test]
fn a_follower_of_the_wrong_type_is_none() {
    for owner in owners() {
        let mut records = owner.records();
        let right = records[1][41];
        for wrong in (0..=255).filter(|byte| *byte != right) {
            records[1][41] = wrong;
            assert_refused(&records, 6, 0);
        }
    }
}

#[test]
fn a_follower_has_all_of_its_owners_first_41_bytes() {
    for owner in [
        View::default().small_user(7, "LEDA", "STORES"),
        View::default().large_user("LEDA", "STORES"),
    ] {
        for at in 0..41 {
            let mut records = owner.records();
            for change in 1..=255 {
                records[1][at] = records[0][at] ^ change;
                let file = placed(1, &records, 1);
                POINTS.assert_refused(&file, 6, 3);
            }
            assert_refused(&records, 6, 0);
        }
    }
}

#[test]
fn a_view_without_organisation_has_no_follower() {
    for follower_type in *b"23" {
        let mut records = View::default().small_user(0, "LEDA", "STORES").records();
        records[1][41] = follower_type;
        assert_refused(&records, 6, 1);
    }
}

/// The same follower again isn't above the first one; a higher one is stray.
#[test]
fn a_follower_stands_once() {
    let small = View::default().small_user(7, "LEDA", "").records();
    let large = View::default().large_user("LEDA", "").records();
    for [owner, follower] in [&small, &large].map(|records| [&records[0], &records[1]]) {
        let mut second = follower.clone();
        let doubled = |second: &Record| [owner.clone(), follower.clone(), second.clone()];
        assert_refused(&doubled(&second), 5, 2);
        second[31] = b'9';
        assert_refused(&doubled(&second), 6, 2);
        second[41] = b'5' - (second[41] - b'0');
        assert_refused(&doubled(&second), 6, 2);
        second[31] = b'0';
        assert_refused(&doubled(&second), 5, 2);
    }
    let mut third = small[1].clone();
    third[41] = b'3';
    assert_refused(&[small[0].clone(), small[1].clone(), third], 6, 2);
    let mut lower = large[1].clone();
    lower[41] = b'2';
    assert_refused(&[large[0].clone(), large[1].clone(), lower], 5, 2);
}

/// A trailer never follows a view, whatever stands in its filler.
#[test]
fn an_owner_before_the_trailer_lacks_its_follower() {
    for owner in owners() {
        let records = owner.records();
        for identifier in [255, b' '] {
            let mut file = placed(2, &records[..1], 0);
            let trailer = file.len() - POINTS.record;
            file[trailer..][..POINTS.identifier].fill(identifier);
            POINTS.assert_refused(&file, 6, 4);
            file[trailer + 22..].copy_from_slice(&records[1][22..]);
            POINTS.assert_refused(&file, 6, 4);
        }
    }
}

/// A header never owns a follower, whatever stands in its filler.
#[test]
fn a_follower_behind_the_header_is_stray() {
    for owner in owners() {
        let records = owner.records();
        assert_refused(&records[1..], 6, 0);
        for identifier in [0, b' '] {
            let mut file = placed(0, &records[1..], 2);
            file[..POINTS.identifier].fill(identifier);
            POINTS.assert_refused(&file, 6, 2);
            file[22..POINTS.record].copy_from_slice(&records[0][22..]);
            POINTS.assert_refused(&file, 6, 2);
        }
    }
}

#[test]
fn a_malformed_follower_is_its_own_refusal_only_behind_byte_42() {
    for owner in owners() {
        let records = owner.records();
        for at in 42..162 {
            let mut malformed = records.clone();
            malformed[1][at] = b'a';
            assert_malformed(&malformed, 1, at + 1);
        }
        for at in 0..42 {
            let mut malformed = records.clone();
            malformed[1][at] = b'!';
            assert_refused(&malformed, 6, 0);
            malformed[0][at] = b'!';
            let first = if (14..18).contains(&at) { 14 } else { at };
            assert_malformed(&malformed, 0, first + 1);
        }
    }
}

#[test]
fn a_blank_name_is_allowed_for_large_users_alone() {
    let mut small = View::default().small_user(7, "LEDA", "STORES").records();
    small[1][42..102].fill(b' ');
    assert_malformed(&small, 1, 43);
    let mut large = View::default().large_user("LEDA", "STORES").records();
    large[1][42..102].fill(b' ');
    assert_taken(&large);
}

/// For each record 4 goes before 5, and 5 before 6.
#[test]
fn strays_and_owners_are_tested_before_their_followers() {
    let plain = View::default().record();
    for owner in owners() {
        let records = owner.records();
        let behind_plain = |record: &Record| [plain.clone(), record.clone()];
        for mut lone in records {
            lone[0..8].copy_from_slice(b"20110902");
            assert_refused(&behind_plain(&lone), 6, 1);
            lone[0..8].copy_from_slice(b"20110831");
            assert_refused(&behind_plain(&lone), 5, 1);
            lone[40] = b'X';
            assert_malformed(&behind_plain(&lone), 1, 41);
        }
    }
}
