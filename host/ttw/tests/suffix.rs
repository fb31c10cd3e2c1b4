//! `ttw show --suffix`: the labels that it prints without it, each under the suffix
//! of its point, which is the second program's.

mod support;

use paper::make::{exact_pair, full_draft, worked_pack, worked_pair, Rng, BUILT, EDITIONS, FIRST};
use support::Folder;

const LABEL: &str = "ATTIC FLAT\n110-114 QUARRY LANE\nHARTWELL BAY\nAB1 9ZZ\n";
const NO_SUFFIX: &str = "a pack of this edition has no suffix (refusal 13)";
const NO_POINT: &str = "there is none of that number (refusal 7)";

/// The pack of AB1, one of edition 1, and one of no point in each edition.
fn desk() -> Folder {
    let folder = Folder::with_pack(&worked_pair());
    folder.put("older.pack", &worked_pack(FIRST));
    for edition in EDITIONS {
        let mut draft = full_draft(edition);
        draft.points.clear();
        folder.put(&format!("none{}.pack", edition.number), &draft.bytes());
    }
    folder
}

#[test]
fn each_way_of_showing_a_pack_has_suffixes() {
    let folder = desk();
    let listed = folder.ttw(&["show", "AB1.pack", "--suffix"]);
    listed.prints(&format!("point 1\nsuffix 1A\n{LABEL}"));
    assert_eq!(listed.told, "labels printed: 1, refused: 0\n");
    for options in [&["--nth", "1"][..], &["--nth", "1", "--count", "1"]] {
        let arguments = [&["show", "AB1.pack", "--suffix"], options].concat();
        let run = folder.ttw(&arguments);
        run.prints(&format!("suffix 1A\n{LABEL}"));
        assert_eq!(run.told, "");
    }
    let none = ["show", "AB1.pack", "--suffix", "--nth", "1", "--count", "0"];
    folder.ttw(&none).prints("");
}

#[test]
fn a_pack_of_edition_1_prints_its_labels_and_has_no_suffix() {
    let folder = desk();
    folder
        .ttw(&["show", "older.pack"])
        .prints(&format!("point 1\n{LABEL}"));
    for options in [&[][..], &["--nth", "1"], &["--nth", "1", "--count", "9"]] {
        let arguments = [&["show", "older.pack", "--suffix"], options].concat();
        let told = format!("point 1: {NO_SUFFIX}");
        folder.ttw(&arguments).only_tells(1, &told);
    }
    let other = ["show", "older.pack", "--suffix", "--nth", "2"];
    folder
        .ttw(&other)
        .only_tells(1, &format!("point 2: {NO_POINT}"));
    for pack in ["none1.pack", "none2.pack", "none3.pack"] {
        folder.ttw(&["show", pack, "--suffix"]).prints("");
    }
}

#[test]
fn a_number_that_there_is_none_of_ends_them() {
    let folder = desk();
    for k in ["0", "2", "18446744073709551615"] {
        let told = format!("point {k}: {NO_POINT}");
        let one = ["show", "AB1.pack", "--suffix", "--nth", k];
        folder.ttw(&one).only_tells(1, &told);
        let most = [&one[..], &["--count", "18446744073709551615"]].concat();
        folder.ttw(&most).only_tells(1, &told);
    }
    let many = [
        "show", "AB1.pack", "--suffix", "--nth", "1", "--count", "40",
    ];
    let many = folder.ttw(&many);
    assert_eq!(many.status, Some(1));
    assert_eq!(many.out, format!("suffix 1A\n{LABEL}"));
    assert_eq!(many.told, format!("point 2: {NO_POINT}\n"));
}

/// More points than are asked about at a time.
#[test]
fn every_suffix_of_a_long_pack_is_the_second_programs() {
    let folder = Folder::with_pack(&exact_pair(&mut Rng::new(66), 600, 600));
    let pack = folder.read("AB1.pack");
    let points = paper::open(&pack).expect("a pack");
    assert!(points > 100, "{points}");
    let mut expected = String::new();
    for k in 1..=points as u64 {
        let mut label = [0; 499];
        let length = paper::pack_label(&pack, k, &mut label).expect("a label");
        let suffix = paper::pack_suffix(&pack, k).expect("a suffix");
        let suffix = [suffix / 256, suffix % 256].map(|byte| char::from(byte as u8));
        expected += &format!("point {k}\nsuffix {}{}\n", suffix[0], suffix[1]);
        expected += &String::from_utf8_lossy(&label[..length]);
    }
    folder
        .ttw(&["show", "AB1.pack", "--suffix"])
        .prints(&expected);
}

#[test]
fn a_damaged_pack_is_refused_before_its_suffixes() {
    let folder = desk();
    folder.put("a.pack", &worked_pack(BUILT)[1..]);
    let told = "pack: not a pack, or its end is damaged (refusal 11, step 1)";
    folder
        .ttw(&["show", "a.pack", "--suffix"])
        .only_tells(1, told);
}
