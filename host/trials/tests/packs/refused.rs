//! Packs refused at each clause of each step of the pack check, with the step that is told. The packs and their clauses
//! come from the second program's makers; each breaks its clause alone.

use paper::make::{damaged_packs, full_draft, DamagedPack, Edition, BUILT, EDITIONS, SECOND};
use trials::packs::{ask, draft, in_edition, no_pack, resident, row};

/// The packs that fail at a step, of each edition.
fn failing(step: u64) -> Vec<DamagedPack> {
    let mut packs = damaged_packs();
    packs.retain(|damaged| damaged.step == step);
    packs
}

/// Fails where a pack isn't refused at its step, or where a clause that is named here has no pack of each of these
/// editions, or one of another.
#[track_caller]
fn assert_refused(step: u64, clauses: &[&str], editions: &[Edition]) {
    let packs = failing(step);
    for damaged in &packs {
        assert_eq!(ask(&damaged.pack), no_pack(step), "{}", damaged.clause);
    }
    for edition in EDITIONS {
        for clause in clauses {
            let known = packs
                .iter()
                .any(|pack| pack.edition == edition && pack.clause.starts_with(clause));
            assert_eq!(known, editions.contains(&edition), "{clause}, {edition:?}");
        }
    }
}

#[test]
fn each_clause_of_the_trailer_is_step_1() {
    let clauses = [
        "a byte less than a trailer",
        "edition 0",
        "edition 4",
        "edition 255",
        "widths of another edition than ",
        "length one less",
        "length one more",
        "outward in no pattern",
        "outward letter",
        "points start one less",
        "points start one more",
        "one point less",
        "one point more",
        "sum right in 32 bits only",
    ];
    assert_refused(1, &clauses, &EDITIONS);
    let short = ["21 bytes of a trailer", "60 bytes that end as in edition 1"];
    assert_refused(1, &short, &[BUILT]);
}

#[test]
fn each_clause_of_the_rows_is_step_2() {
    let clauses = [
        "one row less",
        "one row more",
        "rows that end as in edition ",
        "type 0 first",
        "type 7",
        "type falls to 5",
        "last text over the end",
        "too long in row",
        "small letter in row",
        "byte 31 in row",
        "space in front in row",
        "space behind in row",
        "empty in row",
        "double without dependent",
    ];
    assert_refused(2, &clauses, &EDITIONS);
}

#[test]
fn each_clause_of_the_points_is_step_3() {
    let clauses = [
        "locality absent",
        "inside a row in offset",
        "row of another type in offset",
        "points start in offset",
        "another code",
        "inward without digit",
        "inward letter",
        "postcode type",
        "address key",
        "organisation key",
        "number",
        "concatenation",
        "PO box",
        "rule 8, 1",
        "rule 8, 2",
        "rule 8, 3, descriptor",
        "rule 8, 3, dependent descriptor",
        "large user without organisation row",
        "small user without organisation row",
        "small user without organisation name",
        "organisation row with key zero",
    ];
    assert_refused(3, &clauses, &EDITIONS);
    assert_refused(3, &["suffix "], &[SECOND, BUILT]);
}

#[test]
fn each_clause_of_the_counts_is_step_4() {
    let clauses = [
        "count one more in sector 0",
        "count one less in sector 9",
        "point in another sector",
        "counts all zero",
        "counts one sector on",
        "counts of sectors 9 and 0 changed over",
        "one counted in sector 0 and not in 9",
    ];
    assert_refused(4, &clauses, &[BUILT]);
}

#[test]
fn no_pack_is_shorter_than_its_trailer() {
    for edition in EDITIONS {
        let pack = in_edition(&draft(&[], &[]), edition);
        let trailer = edition.trailer;
        assert_eq!((pack.len(), ask(&pack)), (trailer, 0));
        for length in 0..trailer {
            assert_eq!(ask(&pack[trailer - length..]), no_pack(1), "{length} bytes");
        }
    }
}

/// A pack of three points with its first and last changed over: no label depends on the order of the others.
fn with_points_turned(pack: &[u8], edition: Edition) -> Vec<u8> {
    let last = pack.len() - edition.trailer - edition.point;
    let first = last - 2 * edition.point;
    let mut turned = pack.to_vec();
    (0..edition.point).for_each(|at| turned.swap(first + at, last + at));
    turned
}

#[test]
fn a_fault_of_the_last_point_is_found_as_well() {
    for edition in EDITIONS {
        let turned = with_points_turned(&full_draft(edition).bytes(), edition);
        assert_eq!(ask(&turned), 3);
    }
    for damaged in failing(3).into_iter().chain(failing(4)) {
        let turned = with_points_turned(&damaged.pack, damaged.edition);
        assert_eq!(ask(&turned), no_pack(damaged.step), "{}", damaged.clause);
    }
}

#[test]
fn the_first_failing_step_is_told() {
    for damaged in [2, 3, 4].into_iter().flat_map(failing) {
        let mut pack = damaged.pack;
        *pack.last_mut().expect("a pack") = 0;
        assert_eq!(ask(&pack), no_pack(1), "{} and edition 0", damaged.clause);
    }
    for damaged in [3, 4].into_iter().flat_map(failing) {
        let mut pack = damaged.pack;
        pack[2] = b'h';
        assert_eq!(ask(&pack), no_pack(2), "{} and a row", damaged.clause);
    }
    let postcode_type = full_draft(BUILT).points_start() + 9;
    for damaged in failing(4) {
        let mut pack = damaged.pack;
        pack[postcode_type] = b'X';
        assert_eq!(ask(&pack), no_pack(3), "{} and a point", damaged.clause);
    }
}

/// Every offset of a point to every byte of its pack: taken at the starts of the rows of its type, nowhere else.
#[test]
fn every_offset_to_every_place() {
    let full = full_draft(BUILT);
    let (pack, starts) = (full.bytes(), full.offsets());
    let types = [1, 2, 3, 2, 3, 4, 5, 6];
    for (reference, row_type) in types.into_iter().enumerate() {
        let field = full.points_start() + BUILT.offsets() + 4 * reference;
        for offset in 0..pack.len() as u32 + 60 {
            let mut other = pack.clone();
            other[field..field + 4].copy_from_slice(&offset.to_be_bytes());
            let mut rows = full.rows.iter().zip(&starts);
            let taken = rows.any(|(row, start)| {
                // The first point is a small user, who needs a name.
                let named = row_type != 6 || !row.texts[0].is_empty();
                *start == offset && row.row_type == row_type && named
            });
            let expected = if taken { 3 } else { no_pack(3) };
            assert_eq!(ask(&other), expected, "offset {reference} to {offset}");
        }
    }
}

/// A row whose length byte says that it ends behind the row area, though the pack has the bytes.
#[test]
fn a_row_that_reaches_into_the_points_is_step_2() {
    let rows = [row(1, &["HOLT", "", ""]), row(2, &["QUARRY"])];
    let draft = draft(&rows, &[resident()]);
    let length_byte = draft.offsets()[1] as usize + 1;
    for more in 1..=54 {
        let mut pack = draft.bytes();
        pack[length_byte] += more;
        assert_eq!(ask(&pack), no_pack(2), "{more} bytes behind the rows");
    }
    assert_eq!(ask(&draft.bytes()), 1);
}
