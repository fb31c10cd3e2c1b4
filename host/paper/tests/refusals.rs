//! Every refusal with its detail, and the order in which they come.

use paper::make::{
    bad_outward, damaged_packs, damaged_points, damaged_table, exact_pair, full_draft,
    point_breaks, point_file, point_file_of, table_breaks, table_file, table_file_of, whole_view,
    worked_pair, Pair, Place, Rng, TableRow, View, EDITIONS, FORBIDDEN, MISSING,
};
use paper::{
    build, check_points, check_table, code_label, label, label_of, letter, live, open, pack_label,
    pack_suffix, packed, point_fault, sector, table_fault, views, Refusal,
};
use std::collections::BTreeMap;

const ROUNDS: u64 = 60;

fn refusal(number: u8, file: u8, detail: u64) -> Refusal {
    Refusal {
        number,
        file,
        second: 0,
        detail,
    }
}

#[test]
fn damaged_table_files_give_their_refusal_at_its_place() {
    for number in 1..=6 {
        for place in Place::ALL {
            let mut reached = 0;
            for seed in 0..ROUNDS {
                let rng = &mut Rng::new(seed);
                if let Some(damaged) = damaged_table(rng, number, place) {
                    assert_eq!(
                        check_table(&damaged.file),
                        Err(damaged.refusal),
                        "{place:?}"
                    );
                    reached += 1;
                }
            }
            let possible = number < 6 && Place::of(number).contains(&place);
            assert_eq!(reached > 0, possible, "{number} {place:?}");
        }
    }
}

#[test]
fn damaged_point_files_give_their_refusal_at_its_place() {
    for number in 1..=7 {
        for place in Place::ALL {
            let mut reached = 0;
            for seed in 0..ROUNDS {
                let rng = &mut Rng::new(seed);
                if let Some(damaged) = damaged_points(rng, number, place) {
                    assert_eq!(
                        check_points(&damaged.file),
                        Err(damaged.refusal),
                        "{place:?}"
                    );
                    reached += 1;
                }
            }
            let possible = number < 7 && Place::of(number).contains(&place);
            assert_eq!(reached > 0, possible, "{number} {place:?}");
        }
    }
}

#[test]
fn every_table_field_that_is_read_can_be_at_fault() {
    let records = [
        TableRow::locality(8, "HOLT", "PENN", "OLD QUAY"),
        TableRow::thoroughfare(8, "HIGH"),
        TableRow::descriptor(8, "STREET"),
        TableRow::building(8, "THE MANOR"),
        TableRow::sub_building(8, "FLAT 1"),
    ]
    .map(|row| row.record());
    for (row_type, record) in (1..).zip(records) {
        assert_eq!(table_fault(&record), 0);
        assert_eq!(
            check_table(&table_file_of(std::slice::from_ref(&record))),
            Ok(3)
        );
        for change in table_breaks(row_type) {
            let mut broken = record.clone();
            change.apply(&mut broken);
            assert_eq!(table_fault(&broken), change.fault, "{row_type} {change:?}");
            let file = table_file_of(&[broken]);
            assert_eq!(
                check_table(&file),
                Err(Refusal::malformed(1, 2, change.fault))
            );
        }
    }
}

#[test]
fn every_point_field_that_is_read_can_be_at_fault() {
    let small = View::default().small_user(8, "LEDA", "STORES").records();
    let large = View::default().large_user("LEDA", "STORES").records();
    for (record_type, record) in [
        (1, &small[0]),
        (1, &large[0]),
        (2, &small[1]),
        (3, &large[1]),
    ] {
        assert_eq!(point_fault(record), 0);
        for change in point_breaks(record_type) {
            let mut broken = record.clone();
            change.apply(&mut broken);
            assert_eq!(
                point_fault(&broken),
                change.fault,
                "{record_type} {change:?}"
            );
            let file = point_file_of(&[broken]);
            assert_eq!(
                check_points(&file),
                Err(Refusal::malformed(2, 2, change.fault))
            );
        }
    }
}

#[test]
fn the_fields_that_are_not_read_have_no_fault() {
    let mut descriptor = TableRow::descriptor(8, "STREET").record();
    descriptor[44..].fill(200);
    assert_eq!(table_fault(&descriptor), 0);
    let mut locality = TableRow::locality(8, "HOLT", "", "").record();
    locality[24..69].fill(0);
    assert_eq!(table_fault(&locality), 0);
    let mut records = View::default().large_user("", "").records();
    records[0][116..].fill(255);
    records[1][162..].fill(b'z');
    assert!(records.iter().all(|record| point_fault(record) == 0));
    assert_eq!(check_points(&point_file_of(&records)), Ok(4));
}

#[test]
fn records_of_another_length_are_at_fault_at_byte_1() {
    let row = TableRow::thoroughfare(8, "HIGH").record();
    let view = View::default().record();
    assert_eq!(table_fault(&row[..168]), 1);
    assert_eq!(table_fault(&[&row[..], b" "].concat()), 1);
    assert_eq!(table_fault(b""), 1);
    assert_eq!(point_fault(&view[..167]), 1);
    assert_eq!(point_fault(&[&view[..], b" "].concat()), 1);
    assert_eq!(point_fault(b""), 1);
}

#[test]
fn lengths_are_2_to_20_000_whole_records() {
    let rng = &mut Rng::new(3);
    let largest = exact_pair(rng, 20_000, 20_000);
    assert_eq!(check_table(&largest.table), Ok(20_000));
    assert_eq!(check_points(&largest.points), Ok(20_000));
    let smallest = exact_pair(rng, 2, 2);
    assert_eq!(check_table(&smallest.table), Ok(2));
    assert_eq!(check_points(&smallest.points), Ok(2));
    let view = View::default();
    let many: Vec<View> = (1..20_000)
        .map(|address_key| View {
            address_key,
            ..view.clone()
        })
        .collect();
    assert_eq!(check_points(&point_file(&many)), Err(refusal(1, 2, 0)));
    assert_eq!(check_points(&point_file(&many[1..])), Ok(20_000));
    assert_eq!(check_table(&largest.table[1..]), Err(refusal(1, 1, 0)));
}

#[test]
fn spaces_throughout_an_identifier_are_taken_and_hide_nothing() {
    let pair = worked_pair();
    let mut table = pair.table.clone();
    let trailer = table.len() - 169;
    table[trailer..][..8].fill(b' ');
    assert_eq!(check_table(&table), Err(refusal(3, 1, 7)), "partly spaces");
    table[trailer + 8] = b' ';
    assert_eq!(check_table(&table), Ok(7));
    table[1..9].fill(b' ');
    assert_eq!(check_table(&table), Err(refusal(2, 1, 1)), "partly spaces");
    table[0] = b' ';
    assert_eq!(check_table(&table), Ok(7));
    table[trailer + 16] = b'9';
    assert_eq!(check_table(&table), Err(refusal(3, 1, 7)));
    table[9] = b'X';
    assert_eq!(check_table(&table), Err(refusal(2, 1, 1)));
    table.push(b' ');
    assert_eq!(check_table(&table), Err(refusal(1, 1, 0)));
}

#[test]
fn a_point_files_identifiers_have_14_bytes() {
    let mut points = worked_pair().points;
    let trailer = points.len() - 168;
    points[trailer..][..13].fill(b' ');
    assert_eq!(check_points(&points), Err(refusal(3, 2, 4)));
    points[trailer + 13] = b' ';
    assert_eq!(check_points(&points), Ok(4));
    points[..13].fill(b' ');
    assert_eq!(check_points(&points), Err(refusal(2, 2, 1)));
    points[13] = b' ';
    assert_eq!(check_points(&points), Ok(4));
}

#[test]
fn files_are_refused_in_the_order_1_2_3_then_record_by_record() {
    let pair = worked_pair();
    let mut table = pair.table.clone();
    let last = table.len() - 1;
    table[3 * 169] = b'9';
    assert_eq!(check_table(&table), Err(Refusal::malformed(1, 4, 1)));
    table[2 * 169 + 1..2 * 169 + 9].copy_from_slice(b"00000001");
    table[2 * 169] = b'1';
    assert_eq!(check_table(&table), Err(Refusal::malformed(1, 3, 70)));
    table[last - 168] = 0;
    assert_eq!(check_table(&table), Err(refusal(3, 1, 7)));
    table[0] = 1;
    assert_eq!(check_table(&table), Err(refusal(2, 1, 1)));
    table.push(b' ');
    assert_eq!(check_table(&table), Err(refusal(1, 1, 0)));
}

#[test]
fn a_table_record_is_above_the_one_before_by_24_bytes() {
    let rows = [TableRow::building(9, "A"), TableRow::building(9, "B")];
    assert_eq!(check_table(&table_file(&rows)), Err(refusal(5, 1, 3)));
    let [first, second] = rows;
    let later = [
        TableRow {
            date: 1,
            ..second.clone()
        },
        TableRow {
            time: 1,
            ..second.clone()
        },
        TableRow {
            letter: b'C',
            ..second
        },
    ];
    for row in later {
        let rows = [first.clone(), row];
        assert_eq!(check_table(&table_file(&rows)), Ok(4));
        let rows = [rows[1].clone(), rows[0].clone()];
        assert_eq!(check_table(&table_file(&rows)), Err(refusal(5, 1, 3)));
    }
    let rows = [TableRow::building(9, "A"), TableRow::sub_building(9, "B")];
    assert_eq!(check_table(&table_file(&rows)), Ok(4));
    let rows = [TableRow::building(9, "A"), TableRow::thoroughfare(10, "B")];
    assert_eq!(check_table(&table_file(&rows)), Err(refusal(5, 1, 3)));
}

#[test]
fn followers_are_judged_before_they_are_tested() {
    let owner = View::default().small_user(7, "LEDA", "");
    let mut records = owner.records();
    records[1][40] = b'X';
    assert_eq!(
        check_points(&point_file_of(&records)),
        Err(refusal(6, 2, 2))
    );
    records[1][40] = b'I';
    records[1][42..102].fill(b' ');
    assert_eq!(
        check_points(&point_file_of(&records)),
        Err(Refusal::malformed(2, 3, 43))
    );
    records[0][40] = b'X';
    assert_eq!(
        check_points(&point_file_of(&records)),
        Err(Refusal::malformed(2, 2, 41))
    );
}

#[test]
fn a_small_users_indicator_does_not_count() {
    let marked = View {
        indicator: b'Y',
        ..View::default()
    };
    assert_eq!(check_points(&point_file(&[marked])), Ok(3));
    let unmarked = View {
        indicator: b' ',
        ..View::default().small_user(7, "LEDA", "")
    };
    assert_eq!(check_points(&point_file(&[unmarked])), Ok(4));
}

#[test]
fn a_trailer_is_no_follower_and_a_header_no_owner() {
    for owner in [
        View::default().small_user(7, "LEDA", ""),
        View::default().large_user("", ""),
    ] {
        let records = owner.records();
        let alone = &records[..1];
        assert_eq!(check_points(&point_file_of(alone)), Err(refusal(6, 2, 2)));
        let mut stray = point_file_of(&records[1..]);
        assert_eq!(check_points(&stray), Err(refusal(6, 2, 2)));
        stray[22..168].copy_from_slice(&records[0][22..]);
        assert_eq!(check_points(&stray), Err(refusal(6, 2, 2)));
    }
}

#[test]
fn stray_records_are_tested_before_they_are_stray() {
    let view = View::default();
    let mut stray = view.clone().large_user("LEDA", "").records().remove(1);
    stray[23] = b'S';
    let file = |stray: &[u8]| point_file_of(&[view.record(), stray.to_vec()]);
    assert_eq!(check_points(&file(&stray)), Err(refusal(6, 2, 3)));
    stray[0] = b'1';
    assert_eq!(check_points(&file(&stray)), Err(refusal(5, 2, 3)));
    stray[0] = b'X';
    assert_eq!(
        check_points(&file(&stray)),
        Err(Refusal::malformed(2, 3, 1))
    );
}

/// The 8 or 9 of a view of the rows that a whole view has.
fn label_refusal(view: &View) -> Option<(u8, u64)> {
    let pair = Pair::new(whole_view().0, vec![view.clone()]);
    let answer = label_of(&pair.table, &pair.points, 1);
    let mut pack = [0; 1_000];
    let built = build(&pair.table, &pair.points, b"AB1 ", &mut pack);
    assert_eq!(
        answer.as_ref().err().copied(),
        built.err().map(|why| Refusal { second: 0, ..why })
    );
    assert!(built.is_ok() || built.is_err_and(|why| why.second == 1));
    answer.err().map(|why| (why.number, why.detail))
}

/// The refusal of the view that has every key, after a change.
fn changed(change: impl Fn(&mut View)) -> Option<(u8, u64)> {
    let mut view = whole_view().1;
    change(&mut view);
    label_refusal(&view)
}

#[test]
fn rule_8_has_three_details() {
    assert_eq!(changed(|_| ()), None);
    for (change, detail) in FORBIDDEN {
        assert_eq!(changed(change), Some((8, detail)));
    }
    let numbered = |view: &mut View| (view.building, view.building_number) = (0, 1);
    assert_eq!(changed(numbered), None);
    let own_descriptor = |view: &mut View| {
        view.thoroughfare = 0;
        view.dependent_thoroughfare = 0;
        view.dependent_descriptor = 0;
    };
    assert_eq!(changed(own_descriptor), Some((8, 3)));
    let no_descriptor = |view: &mut View| {
        own_descriptor(view);
        view.descriptor = 0;
    };
    assert_eq!(changed(no_descriptor), None);
}

#[test]
fn rule_8_gives_its_lowest_detail_and_comes_before_9() {
    let first_and_second = |view: &mut View| (view.building, view.thoroughfare) = (0, 0);
    assert_eq!(changed(first_and_second), Some((8, 1)));
    let second_and_third = |view: &mut View| (view.thoroughfare, view.descriptor) = (0, 99);
    assert_eq!(changed(second_and_third), Some((8, 2)));
    let no_locality = |view: &mut View| (view.dependent_thoroughfare, view.locality) = (0, 0);
    assert_eq!(changed(no_locality), Some((8, 3)));
}

#[test]
fn refusal_9_has_seven_details_lowest_first() {
    let missing = &MISSING[..7];
    for (detail, change) in (1..).zip(missing) {
        assert_eq!(changed(change), Some((9, detail)));
        let mut view = whole_view().1;
        for change in &missing[detail as usize - 1..] {
            change(&mut view);
        }
        assert_eq!(label_refusal(&view), Some((9, detail)));
    }
    assert_eq!(changed(|view| view.locality = 0), Some((9, 1)));
    assert_eq!(
        changed(|view| view.descriptor = 2),
        Some((9, 3)),
        "a key of another type"
    );
}

#[test]
fn no_view_of_that_number_is_7() {
    let pair = worked_pair();
    let none = refusal(7, 0, 0);
    assert_eq!(views(&pair.points), Ok(2));
    assert_eq!(letter(&pair.points, 1), Ok(b'I'));
    assert_eq!(letter(&pair.points, 2), Ok(b'D'));
    assert_eq!(live(&pair.points, b"AB1 "), Ok(1));
    for view in [0, 3, 1 << 32, (1 << 32) + 1, u64::MAX] {
        assert_eq!(letter(&pair.points, view), Err(none));
        assert_eq!(label_of(&pair.table, &pair.points, view), Err(none));
    }
    for k in [0, 2, (1 << 32) + 1, u64::MAX] {
        let answer = code_label(&pair.table, &pair.points, b"AB1 ", k, &mut [0; 499]);
        assert_eq!(answer, Err(none));
    }
    let answer = code_label(&pair.table, &pair.points, b"AB2 ", 1, &mut [0; 499]);
    assert_eq!(answer, Err(none));
}

#[test]
fn a_short_buffer_is_10_with_the_bytes_needed() {
    let pair = worked_pair();
    let (table, points) = (&pair.table, &pair.points);
    let label_room = Err(refusal(10, 0, 52));
    assert_eq!(label(table, points, 1, &mut [0; 51]), label_room);
    assert_eq!(label(table, points, 1, &mut [0; 52]), Ok(52));
    assert_eq!(code_label(table, points, b"AB1 ", 1, &mut []), label_room);
    assert_eq!(
        build(table, points, b"AB1 ", &mut [0; 170]),
        Err(refusal(10, 0, 171))
    );
    let mut pack = [0; 171];
    assert_eq!(build(table, points, b"AB1 ", &mut pack), Ok(171));
    assert_eq!(pack_label(&pack, 1, &mut [0; 51]), label_room);
    assert_eq!(
        build(table, points, b"AB2 ", &mut [0; 60]),
        Err(refusal(10, 0, 61))
    );
}

#[test]
fn a_malformed_code_is_12_behind_the_files() {
    let rng = &mut Rng::new(9);
    let pair = worked_pair();
    let (table, points) = (&pair.table, &pair.points);
    let malformed = refusal(12, 0, 0);
    for _ in 0..500 {
        let code = bad_outward(rng);
        assert_eq!(live(points, &code), Err(malformed));
        assert_eq!(code_label(table, points, &code, 0, &mut []), Err(malformed));
        assert_eq!(build(table, points, &code, &mut []), Err(malformed));
        assert_eq!(live(&points[1..], &code), Err(refusal(1, 2, 0)));
        assert_eq!(build(table, b"", &code, &mut []), Err(refusal(1, 2, 0)));
        assert_eq!(build(b"", b"", &code, &mut []), Err(refusal(1, 1, 0)));
    }
}

#[test]
fn labels_blame_the_table_file_first() {
    let pair = worked_pair();
    let mut out = [0; 499];
    assert_eq!(label(b"", b"", 0, &mut out), Err(refusal(1, 1, 0)));
    assert_eq!(label(&pair.table, b"", 0, &mut out), Err(refusal(1, 2, 0)));
    assert_eq!(
        label(&pair.table, &pair.points, 0, &mut []),
        Err(refusal(7, 0, 0))
    );
    assert_eq!(
        label(&pair.table, &pair.points, 2, &mut []),
        Err(refusal(9, 0, 6))
    );
    assert_eq!(
        label(&pair.table, &pair.points, 1, &mut []),
        Err(refusal(10, 0, 52))
    );
}

#[test]
fn building_names_the_first_live_view_that_is_refused() {
    let (rows, view) = whole_view();
    let views = [
        (b'I', "AB1", 7),
        (b'D', "AB1", 90),
        (b'B', "AB1", 91),
        (b'C', "AB1", 7),
        (b'I', "AB1", 92),
        (b'I', "AB1", 93),
        (b'I', "AB2", 7),
    ];
    let numbered = (1..).zip(views);
    let views = numbered.map(|(address_key, (letter, outward, sub_building))| View {
        address_key,
        letter,
        outward: outward.to_string(),
        sub_building,
        ..view.clone()
    });
    let pair = Pair::new(rows, views.collect());
    let refused = Refusal {
        second: 5,
        ..refusal(9, 0, 7)
    };
    let mut out = [0; 1_000];
    assert_eq!(
        build(&pair.table, &pair.points, b"AB1 ", &mut out),
        Err(refused)
    );
    assert_eq!(
        build(&pair.table, &pair.points, b"AB1 ", &mut []),
        Err(refused)
    );
    assert!(build(&pair.table, &pair.points, b"AB2 ", &mut out).is_ok());
    assert_eq!(live(&pair.points, b"AB1 "), Ok(4));
}

#[test]
fn every_clause_of_the_pack_check_is_11_with_its_step() {
    let mut steps = BTreeMap::new();
    for damaged in damaged_packs() {
        let expected = refusal(11, 0, damaged.step);
        let (pack, clause) = (&damaged.pack, &damaged.clause);
        assert_eq!(open(pack), Err(expected), "{clause}");
        assert_eq!(pack_label(pack, 0, &mut []), Err(expected), "{clause}");
        assert_eq!(pack_suffix(pack, 0), Err(expected), "{clause}");
        assert_eq!(sector(pack, 10), Err(expected), "{clause}");
        let seen: &mut [usize; 5] = steps.entry(damaged.edition.number).or_default();
        seen[damaged.step as usize] += 1;
    }
    println!("{steps:?}");
    for edition in EDITIONS {
        let seen = steps[&edition.number];
        assert!(seen[1] >= 20 && seen[2] >= 90 && seen[3] >= 150);
        assert_eq!(seen[4] >= 50, edition.has_counts());
    }
}

#[test]
fn no_point_of_that_number_is_7_behind_11() {
    for edition in EDITIONS {
        let pack = full_draft(edition).bytes();
        assert_eq!(open(&pack), Ok(3));
        for k in [0, 4, u64::MAX] {
            assert_eq!(pack_label(&pack, k, &mut []), Err(refusal(7, 0, 0)));
            assert_eq!(pack_suffix(&pack, k), Err(refusal(7, 0, 0)));
        }
    }
}

#[test]
fn answers_are_packed_into_bits() {
    assert_eq!(packed(Ok(171)), 171);
    let refused = Refusal {
        number: 9,
        file: 0,
        second: 5,
        detail: 7,
    };
    assert_eq!(packed(Err(refused)), 9 << 56 | 5 << 32 | 7);
    let malformed = Refusal::malformed(2, 20_000, 168);
    assert_eq!(malformed.packed(), 4 << 56 | 2 << 52 | 168 << 32 | 20_000);
}
