//! The packs in `samples/packs`, of each edition the same: handsets have packs of
//! older editions, so that whatever editions come, these have to open.

use paper::make::samples::{kept, labelled, packs, KEPT};
use paper::make::{worked_pair, Edition, Pair, BUILT, EDITIONS, FIRST, SECOND};
use paper::{build, open, pack_list, pack_suffix, sector, Refusal};
use std::fs;

/// The page of all packs of an edition: a line for each, and what `of` says of it.
fn page(edition: Edition, of: impl Fn(&[u8], u64) -> String) -> String {
    let mut page = String::new();
    for name in KEPT {
        let pack = kept(edition, name);
        assert_eq!(Edition::of(&pack), Some(edition), "{name}");
        let points = open(&pack).expect("a kept pack opens") as u64;
        page += &format!("pack {name} {points}\n{}", of(&pack, points));
    }
    page
}

fn text_of(name: &str) -> String {
    fs::read_to_string(packs().join(name)).expect("a text")
}

#[test]
fn kept_packs_of_each_edition_print_the_same_labels() {
    for edition in EDITIONS {
        let labels = page(edition, |pack, points| {
            let mut out = vec![0; 10_000];
            let run = pack_list(pack, 1, points, &mut out).expect("a pack");
            assert_eq!((run.labels, run.stop), (points, None));
            String::from_utf8_lossy(&out[..run.bytes]).into_owned()
        });
        assert_eq!(labels, text_of("labels.txt"), "{edition:?}");
    }
}

#[test]
fn kept_packs_have_their_suffixes_or_are_refused_with_13() {
    for edition in [SECOND, BUILT] {
        let suffixes = page(edition, |pack, points| {
            let line = |k| {
                let suffix = pack_suffix(pack, k).expect("a suffix") as u16;
                let suffix = suffix.to_be_bytes().map(char::from);
                format!("point {k} {}{}\n", suffix[0], suffix[1])
            };
            (1..=points).map(line).collect()
        });
        assert_eq!(suffixes, text_of("suffixes.txt"), "{edition:?}");
    }
    page(FIRST, |pack, points| {
        let refused = |k| assert_eq!(pack_suffix(pack, k), Err(Refusal::new(13, 0)));
        (1..=points).for_each(refused);
        String::new()
    });
}

#[test]
fn kept_packs_of_each_edition_have_the_same_sectors() {
    for edition in EDITIONS {
        let sectors = page(edition, |pack, points| {
            let counts = (0..10).map(|digit| sector(pack, digit).expect("a sector"));
            assert_eq!(counts.clone().sum::<u64>(), points);
            let line = |(digit, count)| format!("sector {digit}: {count}\n");
            (0..10).zip(counts).map(line).collect()
        });
        assert_eq!(sectors, text_of("sectors.txt"), "{edition:?}");
    }
}

/// A pack as one of another edition whose trailer is shorter: its body, what the
/// trailer says up to the length, the length, the edition.
fn ended(body: &[u8], trailer: &[u8], edition: Edition) -> Vec<u8> {
    let length = (body.len() + edition.trailer) as u32;
    let end = [&length.to_be_bytes()[..], &[edition.number]].concat();
    [body, &trailer[..16], &end].concat()
}

/// A pack without the counts of its sectors, as one of edition 2.
fn without_counts(pack: &[u8]) -> Vec<u8> {
    let (body, trailer) = pack.split_at(pack.len() - BUILT.trailer);
    ended(body, trailer, SECOND)
}

/// A pack of edition 2 without the suffix of each point, as one of edition 1.
fn without_suffixes(pack: &[u8]) -> Vec<u8> {
    let (body, trailer) = pack.split_at(pack.len() - SECOND.trailer);
    let start = u32::from_be_bytes(trailer[4..8].try_into().expect("4 bytes"));
    let (rows, points) = body.split_at(start as usize);
    let bare = |point: &[u8]| [&point[..7], &point[9..]].concat();
    let points: Vec<u8> = points.chunks(SECOND.point).flat_map(bare).collect();
    ended(&[rows, &points].concat(), trailer, FIRST)
}

#[test]
fn without_what_an_edition_added_each_is_the_one_of_the_edition_before() {
    for name in KEPT {
        let bare = without_counts(&kept(BUILT, name));
        assert_eq!(bare, kept(SECOND, name), "{name}");
        let bare = without_suffixes(&bare);
        assert_eq!(bare, kept(FIRST, name), "{name}");
    }
}

#[test]
fn building_gives_those_of_the_edition_that_is_built() {
    let (labelled, worked) = (labelled(), worked_pair());
    for (name, Pair { table, points, .. }, code) in [
        ("AB1", &labelled, b"AB1 "),
        ("DN55", &labelled, b"DN55"),
        ("EC1N", &labelled, b"EC1N"),
        ("W1A", &labelled, b"W1A "),
        ("worked", &worked, b"AB1 "),
    ] {
        let mut pack = vec![0; 10_000];
        let length = build(table, points, code, &mut pack).expect("a pack");
        assert_eq!(pack[..length], kept(BUILT, name), "{name}");
    }
}
