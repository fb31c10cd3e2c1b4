//! The packs that docs/PACK.md shows, and in `samples/` the worked pair, as it is and archived, and the months of a book.

use paper::make::{samples, worked_pair, Pair};
use std::fs;
use std::path::{Path, PathBuf};
use trials::annotated::{annotated, worked_packs};

fn root() -> PathBuf {
    Path::new(env!("CARGO_MANIFEST_DIR")).join("../..")
}

#[test]
fn the_annotated_packs_are_the_one_that_is_built_and_those_of_editions_2_and_1() {
    let page = fs::read_to_string(root().join("docs/PACK.md")).expect("docs/PACK.md");
    let packs = worked_packs();
    assert_eq!(packs.each_ref().map(Vec::len), [171, 131, 129]);
    let blocks = packs.map(|pack| format!("```annotated\n{}```\n", annotated(&pack)));
    for block in &blocks {
        assert!(page.contains(block), "docs/PACK.md shows another pack");
    }
    assert_eq!(page.matches("```annotated\n").count(), blocks.len());
}

#[test]
fn every_byte_of_an_annotated_pack_is_shown_once() {
    for pack in worked_packs() {
        let page = annotated(&pack);
        let mut shown = Vec::new();
        for line in page.lines().filter(|line| line.starts_with(' ')) {
            let (start, rest) = line.trim_start().split_once("  ").expect("a place");
            assert_eq!(start.parse(), Ok(shown.len()));
            let bytes = rest.split("  ").next().expect("bytes");
            let bytes = bytes.split(' ').map(|byte| u8::from_str_radix(byte, 16));
            shown.extend(bytes.map(|byte| byte.expect("a byte")));
        }
        assert_eq!(shown, pack);
    }
}

/// Fails unless a folder of the samples has the files of this pair.
fn stands_in(folder: &str, pair: &Pair) {
    let folder = root().join("samples").join(folder);
    assert!(fs::read(folder.join("changes1")).expect("changes1") == pair.table);
    assert!(fs::read(folder.join("changes2")).expect("changes2") == pair.points);
}

#[test]
fn the_worked_pair_stands_in_samples() {
    stands_in("worked", &worked_pair());
}

#[test]
fn the_archived_pair_stands_in_samples_and_is_the_worked_one_once_rewritten() {
    let mut pair = samples::archived();
    stands_in("archived", &pair);
    assert_eq!(ttw::calls::unspace_table(&mut pair.table), 2);
    assert_eq!(ttw::calls::unspace_points(&mut pair.points), 1);
    stands_in("worked", &pair);
}

#[test]
fn the_months_and_the_book_that_they_keep_stand_in_samples() {
    let [first, second] = samples::months();
    stands_in("book/first", &first);
    stands_in("book/second", &second);
    let book = fs::read(root().join("samples/book/depot.book")).expect("depot.book");
    assert!(book == samples::book());
    assert_eq!(ttw::calls::book(&book), 6);
}
