//! Document 01's pack, from its words and from `samples/worked`: in edition 3 it has 171 bytes, one suffix and one point
//! in sector 9.

use paper::make::{worked_pack, worked_pair, BUILT, EDITIONS};
use std::fs;
use std::path::Path;
use trials::packs::{ask, built, sectors};
use trials::{agree, rooms};

fn sample(name: &str) -> Vec<u8> {
    let samples = Path::new(env!("CARGO_MANIFEST_DIR")).join("../../samples");
    fs::read(samples.join(name)).expect("a sample file")
}

#[test]
fn the_worked_files_give_document_01s_bytes() {
    let (table, points) = (sample("worked/changes1"), sample("worked/changes2"));
    let pack = ttw::ask::build(&table, &points, b"AB1 ", 171).expect("a pack");
    assert_eq!(pack, worked_pack(BUILT));
    let build = |room| agree::build(&table, &points, b"AB1 ", room);
    assert_eq!(rooms::pack_rooms(build), 171);
    assert_eq!(agree::pack_suffix(&pack, 1), 12_609, "1A");
    assert_eq!(sectors(&pack), [0, 0, 0, 0, 0, 0, 0, 0, 0, 1]);
}

#[test]
fn the_worked_pack_prints_document_01s_label() {
    for pack in EDITIONS.map(worked_pack) {
        assert_eq!(ask(&pack), 1);
        let label = ttw::ask::pack_label(&pack, 1).expect("a label");
        assert_eq!(
            label,
            b"ATTIC FLAT\n110-114 QUARRY LANE\nHARTWELL BAY\nAB1 9ZZ\n"
        );
    }
}

/// The pack of a code without views: no row, no point, a trailer.
#[test]
fn another_code_gives_a_trailer_and_nothing_else() {
    let pack = built(&worked_pair(), b"AB10").expect("a pack");
    assert_eq!(pack[..20], *b"\0\0\0\0\0\0\0\0\0\0\0\0AB10\0\0\0\x3d");
    assert_eq!((&pack[20..60], &pack[60..]), (&[0; 40][..], &[3][..]));
    assert_eq!(ask(&pack), 0);
}
