//! Packs that open though no builder makes them, with the labels that they print.

use paper::make::{PackDraft, PackPoint, PackRow, EDITIONS};
use trials::packs::{ask, draft, in_edition, large_user, resident, row, small_user};

/// Fails where a pack doesn't open with just these labels, in each edition.
#[track_caller]
fn assert_prints(draft: &PackDraft, labels: &[&str]) {
    for edition in EDITIONS {
        let pack = in_edition(draft, edition);
        assert_eq!(ask(&pack), labels.len() as u64);
        for (k, expected) in (1..).zip(labels) {
            let label = ttw::ask::pack_label(&pack, k).expect("a label");
            assert_eq!(String::from_utf8_lossy(&label), *expected);
        }
    }
}

fn town() -> PackRow {
    row(1, &["HOLT", "", ""])
}

#[test]
fn rows_without_points() {
    let rows = [town(), row(2, &["QUARRY"]), row(6, &["A", ""])];
    assert_prints(&draft(&rows, &[]), &[]);
}

#[test]
fn rows_of_every_type_that_no_point_uses() {
    let rows = [
        town(),
        row(1, &["DEAL", "ASH", "ELM"]),
        row(2, &["QUARRY"]),
        row(3, &["LANE"]),
        row(4, &["110-114"]),
        row(5, &["ATTIC FLAT"]),
        row(6, &["", ""]),
    ];
    assert_prints(&draft(&rows, &[resident()]), &["HOLT\nAB1 9ZZ\n"]);
}

#[test]
fn an_organisation_row_shared_by_points() {
    let rows = [town(), row(6, &["BAY BATTERIES", "STORES"])];
    let label = "BAY BATTERIES\nSTORES\nHOLT\nAB1 9ZZ\n";
    let points = [small_user(1), large_user(1), small_user(1)];
    assert_prints(&draft(&rows, &points), &[label; 3]);
}

/// Builders give the organisation rows in the order of the views.
#[test]
fn organisation_rows_in_another_order_than_the_points() {
    let rows = [town(), row(6, &["BETA", ""]), row(6, &["ALPHA", ""])];
    let points = [small_user(2), small_user(1)];
    let labels = ["ALPHA\nHOLT\nAB1 9ZZ\n", "BETA\nHOLT\nAB1 9ZZ\n"];
    assert_prints(&draft(&rows, &points), &labels);
}

#[test]
fn a_large_user_with_empty_texts() {
    let rows = [town(), row(6, &["", ""]), row(6, &["", "STORES"])];
    let points = [large_user(1), large_user(2)];
    let labels = ["HOLT\nAB1 9ZZ\n", "STORES\nHOLT\nAB1 9ZZ\n"];
    assert_prints(&draft(&rows, &points), &labels);
}

#[test]
fn a_large_user_with_an_organisation_key() {
    let rows = [town(), row(6, &["", ""])];
    let point = PackPoint {
        organisation_key: 99_999_999,
        ..large_user(1)
    };
    assert_prints(&draft(&rows, &[point]), &["HOLT\nAB1 9ZZ\n"]);
}

#[test]
fn equal_rows_and_equal_points() {
    let rows = [
        town(),
        town(),
        row(2, &["QUARRY"]),
        row(2, &["QUARRY"]),
        row(6, &["A", ""]),
        row(6, &["A", ""]),
    ];
    let mut point = small_user(5);
    point.rows[0] = Some(1);
    point.rows[1] = Some(3);
    let label = "A\nQUARRY\nHOLT\nAB1 9ZZ\n";
    assert_prints(&draft(&rows, &[point.clone(), point]), &[label; 2]);
}

#[test]
fn one_row_as_thoroughfare_and_dependent_thoroughfare() {
    let rows = [town(), row(2, &["QUARRY"]), row(3, &["LANE"])];
    let mut point = resident();
    for (reference, row) in [(1, 1), (2, 2), (3, 1), (4, 2)] {
        point.rows[reference] = Some(row);
    }
    let label = "QUARRY LANE\nQUARRY LANE\nHOLT\nAB1 9ZZ\n";
    assert_prints(&draft(&rows, &[point]), &[label]);
}

/// The highest numbers and the longest texts that the check lets pass: the longest label, 499 bytes.
#[test]
fn the_longest_label() {
    let text = |length| "W".repeat(length);
    let rows = [
        row(1, &[&text(30), &text(35), &text(35)]),
        row(2, &[&text(60)]),
        row(3, &[&text(20)]),
        row(4, &[&text(50)]),
        row(5, &[&text(30)]),
        row(6, &[&text(60), &text(60)]),
    ];
    let point = PackPoint {
        outward: b"AB10".to_vec(),
        address_key: 99_999_999,
        organisation_key: 99_999_999,
        building_number: 9_999,
        po_box: b"WWWWWW".to_vec(),
        rows: [0, 1, 2, 1, 2, 3, 4, 5].map(Some),
        ..resident()
    };
    let draft = PackDraft {
        outward: b"AB10".to_vec(),
        ..draft(&rows, &[point])
    };
    let lines = [
        text(60),
        text(60),
        format!("PO BOX {}", text(6)),
        text(30),
        text(50),
        format!("9999 {} {}", text(60), text(20)),
        format!("{} {}", text(60), text(20)),
        text(35),
        text(35),
        text(30),
        "AB10 9ZZ".to_string(),
    ];
    let label = lines.join("\n") + "\n";
    assert_eq!(label.len(), 499);
    assert_prints(&draft, &[&label]);
}

/// A PO box is a field of six bytes: blank, full, with a space inside.
#[test]
fn every_way_to_write_a_po_box() {
    let with_box = |text: &[u8]| PackPoint {
        po_box: text.to_vec(),
        ..resident()
    };
    let points = [
        with_box(b"      "),
        with_box(b"A    1"),
        with_box(b"7     "),
    ];
    let labels = [
        "HOLT\nAB1 9ZZ\n",
        "PO BOX A    1\nHOLT\nAB1 9ZZ\n",
        "PO BOX 7\nHOLT\nAB1 9ZZ\n",
    ];
    assert_prints(&draft(&[town()], &points), &labels);
}

/// The sub building needs a name or a number, and the number alone is enough.
#[test]
fn a_sub_building_beside_a_number_alone() {
    let rows = [town(), row(5, &["1A"])];
    let mut point = resident();
    point.rows[6] = Some(1);
    point.building_number = 9_999;
    let joined = PackPoint {
        concatenation: b'Y',
        ..point.clone()
    };
    let labels = ["1A\n9999 HOLT\nAB1 9ZZ\n", "99991A HOLT\nAB1 9ZZ\n"];
    assert_prints(&draft(&rows, &[point, joined]), &labels);
}

/// No step asks how many points or rows there are.
#[test]
fn many_points_of_the_last_of_many_rows() {
    let rows: Vec<PackRow> = (0..400)
        .map(|n| row(1, &[&format!("TOWN {n}"), "", ""]))
        .collect();
    let mut point = resident();
    point.rows[0] = Some(399);
    assert_prints(
        &draft(&rows, &vec![point; 60]),
        &["TOWN 399\nAB1 9ZZ\n"; 60],
    );
}
