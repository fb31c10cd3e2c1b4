//! The packs in `samples/packs`, the same for each edition: handsets have packs of older editions, so that whatever
//! editions come, these have to open and print the labels beside them.

use paper::make::samples::{kept, labelled, packs, KEPT};
use paper::make::{samples, worked_pack, Edition, BUILT, EDITIONS, FIRST, SECOND};
use std::fs;
use trials::agree;
use trials::packs::{ask, built, sectors};

/// All packs of an edition with what is said of each of their points.
fn pages(edition: Edition, of_point: impl Fn(&[u8], u64) -> String) -> String {
    let mut pages = String::new();
    for name in KEPT {
        let pack = kept(edition, name);
        let points = ask(&pack);
        pages += &format!("pack {name} {points}\n");
        pages.extend((1..=points).map(|k| of_point(&pack, k)));
    }
    pages
}

#[test]
fn kept_packs_open_and_print_their_labels() {
    let expected = fs::read_to_string(packs().join("labels.txt")).expect("labels.txt");
    for edition in EDITIONS {
        let labels = pages(edition, |pack, k| {
            let label = ttw::ask::pack_label(pack, k).expect("a label");
            format!("point {k}\n{}", String::from_utf8_lossy(&label))
        });
        assert_eq!(labels, expected, "{edition:?}");
    }
}

#[test]
fn kept_packs_have_their_suffixes_from_edition_2_on() {
    let expected = fs::read_to_string(packs().join("suffixes.txt")).expect("suffixes.txt");
    for edition in [SECOND, BUILT] {
        let suffixes = pages(edition, |pack, k| {
            let suffix = ttw::ask::pack_suffix(pack, k).expect("a suffix");
            format!("point {k} {suffix}\n")
        });
        assert_eq!(suffixes, expected, "{edition:?}");
    }
    pages(FIRST, |pack, k| {
        assert_eq!(agree::pack_suffix(pack, k), 13 << 56);
        String::new()
    });
}

#[test]
fn kept_packs_have_their_sectors() {
    let expected = fs::read_to_string(packs().join("sectors.txt")).expect("sectors.txt");
    for edition in EDITIONS {
        let mut page = String::new();
        for name in KEPT {
            let pack = kept(edition, name);
            page += &format!("pack {name} {}\n", agree::pack(&pack));
            let lines = sectors(&pack).into_iter().zip(0..);
            page.extend(lines.map(|(points, digit)| format!("sector {digit}: {points}\n")));
        }
        assert_eq!(page, expected, "{edition:?}");
    }
}

#[test]
fn kept_packs_are_of_their_edition_and_all_are_tried() {
    for edition in EDITIONS {
        for name in KEPT {
            assert_eq!(Edition::of(&kept(edition, name)), Some(edition), "{name}");
        }
        let folder = packs().join(format!("edition{}", edition.number));
        let names = fs::read_dir(folder).expect("the folder");
        assert_eq!(names.count(), KEPT.len());
    }
}

#[test]
fn the_builder_gives_the_kept_packs_of_its_edition() {
    let pair = labelled();
    for (name, code) in [
        ("AB1", b"AB1 "),
        ("DN55", b"DN55"),
        ("EC1N", b"EC1N"),
        ("W1A", b"W1A "),
    ] {
        assert_eq!(built(&pair, code), Some(kept(BUILT, name)), "{name}");
    }
    for edition in EDITIONS {
        assert_eq!(kept(edition, "worked"), worked_pack(edition));
    }
}

/// The sample files themselves have views in AB1 that are refused, and give the packs of the other two codes.
#[test]
fn the_sample_files_give_the_packs_of_their_sound_codes() {
    let pair = samples::pair();
    assert_eq!(built(&pair, b"EC1N"), Some(kept(BUILT, "EC1N")));
    assert_eq!(built(&pair, b"W1A "), Some(kept(BUILT, "W1A")));
    assert_eq!(built(&pair, b"AB1 "), None);
}
