//! `ttw show --sectors`: how many points each sector of a pack has, in each edition
//! what the second program counts.

mod support;

use paper::make::samples::{kept, packs, KEPT};
use paper::make::{exact_pair, full_draft, worked_pair, PackDraft, Rng, BUILT, EDITIONS};
use std::fs;
use support::Folder;

/// The ten lines of these counts.
fn lines(counts: &[u64]) -> String {
    let line = |(digit, count): (usize, &u64)| format!("sector {digit}: {count}\n");
    counts.iter().enumerate().map(line).collect()
}

#[test]
fn the_worked_pack_has_one_point_in_its_last_sector() {
    let folder = Folder::with_pack(&worked_pair());
    let shown = folder.ttw(&["show", "AB1.pack", "--sectors"]);
    shown.prints(&lines(&[0, 0, 0, 0, 0, 0, 0, 0, 0, 1]));
    assert_eq!(shown.told, "");
}

#[test]
fn each_edition_has_the_same_sectors() {
    let folder = Folder::new();
    for edition in EDITIONS {
        folder.put("full.pack", &full_draft(edition).bytes());
        let shown = folder.ttw(&["show", "full.pack", "--sectors"]);
        shown.prints(&lines(&[1, 0, 0, 0, 0, 0, 0, 0, 0, 2]));
        let none = PackDraft {
            points: Vec::new(),
            ..full_draft(edition)
        };
        folder.put("none.pack", &none.bytes());
        let shown = folder.ttw(&["show", "none.pack", "--sectors"]);
        shown.prints(&lines(&[0; 10]));
    }
}

#[test]
fn the_kept_packs_have_the_sectors_of_their_text() {
    let folder = Folder::new();
    let expected = fs::read_to_string(packs().join("sectors.txt")).expect("sectors.txt");
    for edition in EDITIONS {
        let mut shown = String::new();
        for name in KEPT {
            let pack = kept(edition, name);
            folder.put("a.pack", &pack);
            let points = paper::open(&pack).expect("a pack");
            shown += &format!("pack {name} {points}\n");
            shown += &folder.ttw(&["show", "a.pack", "--sectors"]).out;
        }
        assert_eq!(shown, expected, "{edition:?}");
    }
}

#[test]
fn the_sectors_of_a_long_pack_are_the_second_programs() {
    let folder = Folder::with_pack(&exact_pair(&mut Rng::new(67), 600, 600));
    let pack = folder.read("AB1.pack");
    let counts: Vec<u64> = (0..10)
        .map(|digit| paper::sector(&pack, digit).expect("a sector"))
        .collect();
    assert!(counts.iter().all(|count| *count > 0), "{counts:?}");
    let written = folder.ttw(&["show", "AB1.pack", "--sectors", "--out", "sectors"]);
    written.prints("");
    assert_eq!(folder.read("sectors"), lines(&counts).as_bytes());
}

#[test]
fn a_pack_whose_counts_are_wrong_is_refused_whatever_is_asked() {
    let folder = Folder::new();
    let mut pack = full_draft(BUILT).bytes();
    let last_count = pack.len() - 2;
    pack[last_count] += 1;
    folder.put("a.pack", &pack);
    let told = "pack: the counts of the sectors are damaged (refusal 11, step 4)";
    for options in [&["--sectors"][..], &["--suffix"], &["--nth", "1"], &[]] {
        let arguments = [&["show", "a.pack"], options].concat();
        folder.ttw(&arguments).only_tells(1, told);
    }
}
