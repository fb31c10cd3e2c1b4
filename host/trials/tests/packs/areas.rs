//! Row areas of about half a megabyte: up to there a bit for each byte says where rows start, and walks do in larger ones.

use paper::make::{PackDraft, PackPoint, PackRow, BUILT, EDITIONS};
use trials::agree;
use trials::packs::{draft, in_edition, no_pack, resident, row};

/// The bytes of rows that have a bit each.
const MARKED: usize = 524_288;

const AREAS: [usize; 4] = [MARKED - 1, MARKED, MARKED + 1, 700_000];

/// A thoroughfare that takes so many bytes.
fn thoroughfare(bytes: usize) -> PackRow {
    row(2, &["A".repeat(bytes - 2).as_str()])
}

/// A locality and thoroughfares that together take so many bytes.
fn rows_of(area: usize) -> Vec<PackRow> {
    let mut rows = vec![row(1, &["HOLT", "", ""])];
    let mut left = area - 8;
    while left > 120 {
        let bytes = 3 + left % 57;
        rows.push(thoroughfare(bytes));
        left -= bytes;
    }
    rows.push(thoroughfare(left / 2));
    rows.push(thoroughfare(left - left / 2));
    rows
}

/// A point for each thoroughfare that is given by its place in the list of rows.
fn points_at(rows: &[usize]) -> Vec<PackPoint> {
    let mut points = vec![resident(); rows.len()];
    for (point, row) in points.iter_mut().zip(rows) {
        point.rows[1] = Some(*row);
    }
    points
}

/// A pack of so many bytes of rows, with points at the first thoroughfares, some on the way and the last. Every point is
/// there twice, one behind the other.
fn pack_of(area: usize) -> PackDraft {
    let rows = rows_of(area);
    let last = rows.len() - 1;
    let some = [1, 2, 3, last / 3, last / 2, last - 2, last - 1, last];
    let twice: Vec<usize> = some.into_iter().flat_map(|row| [row, row]).collect();
    let draft = draft(&rows, &points_at(&twice));
    assert_eq!(draft.points_start(), area);
    draft
}

#[test]
fn every_point_of_every_area_is_accepted() {
    for area in AREAS {
        let draft = pack_of(area);
        for edition in EDITIONS {
            let pack = in_edition(&draft, edition);
            assert_eq!(agree::pack(&pack), 16, "{area}, {edition:?}");
        }
    }
}

#[test]
fn an_offset_beside_a_start_is_refused() {
    for area in AREAS {
        let pack = pack_of(area).bytes();
        for point in 0..16 {
            let at = area + BUILT.point * point + BUILT.offsets() + 4;
            let offset = u32::from_be_bytes(pack[at..at + 4].try_into().expect("4 bytes"));
            for other in [offset - 1, offset + 1, 0, area as u32, u32::MAX - 1] {
                let mut pack = pack.clone();
                pack[at..at + 4].copy_from_slice(&other.to_be_bytes());
                assert_eq!(agree::pack(&pack), no_pack(3), "{other} of {area}");
            }
        }
    }
}

#[test]
fn a_fault_in_the_last_row_is_refused() {
    for area in AREAS {
        for byte in [0, 31, b' ', b'a', 127, 255] {
            let mut pack = pack_of(area).bytes();
            pack[area - 1] = byte;
            assert_eq!(agree::pack(&pack), no_pack(2), "{byte} in {area}");
        }
    }
}

/// A thoroughfare of the right length, but for a byte that is no text and makes up for a length that is one.
#[test]
fn a_length_that_may_stand_in_a_text_makes_up_for_no_fault() {
    let rows = [row(1, &["HOLT", "", ""]), thoroughfare(42), thoroughfare(9)];
    for byte in [1, 31, 127] {
        let mut pack = draft(&rows, &points_at(&[1, 2])).bytes();
        assert_eq!(agree::pack(&pack), 2);
        pack[20] = byte;
        assert_eq!(agree::pack(&pack), no_pack(2), "{byte}");
    }
}
