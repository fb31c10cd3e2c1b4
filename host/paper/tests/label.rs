//! The label: every row of the premises table, the order of the lines, the
//! front, and how long a label can get.

use paper::make::{Pair, TableRow, View};
use paper::{label_bytes, label_of, lines, Elements};

fn printed(elements: &Elements) -> Vec<String> {
    let text = |line: Vec<u8>| String::from_utf8(line).expect("ASCII");
    lines(elements).into_iter().map(text).collect()
}

/// A street in a town, with these premises.
fn at<'a>(sub_building: &'a str, building_name: &'a str, building_number: u64) -> Elements<'a> {
    Elements {
        sub_building: sub_building.as_bytes(),
        building_name: building_name.as_bytes(),
        building_number,
        thoroughfare: b"HIGH",
        descriptor: b"STREET",
        post_town: b"HOLT",
        outward: b"AB1",
        inward: b"9ZZ",
        ..Elements::default()
    }
}

#[test]
fn every_row_of_the_premises_table() {
    let table: [(&str, &str, u64, &[&str]); 17] = [
        ("", "", 0, &["HIGH STREET"]),
        ("", "", 7, &["7 HIGH STREET"]),
        ("", "12A", 0, &["12A HIGH STREET"]),
        ("", "THE MANOR", 0, &["THE MANOR", "HIGH STREET"]),
        ("", "12A", 7, &["12A", "7 HIGH STREET"]),
        ("", "THE MANOR", 7, &["THE MANOR", "7 HIGH STREET"]),
        ("FLAT 1", "", 7, &["FLAT 1", "7 HIGH STREET"]),
        ("A", "", 7, &["A", "7 HIGH STREET"]),
        ("10B", "TOWER", 0, &["10B TOWER", "HIGH STREET"]),
        ("10B", "110-114", 0, &["10B 110-114 HIGH STREET"]),
        ("FLAT 1", "TOWER", 0, &["FLAT 1", "TOWER", "HIGH STREET"]),
        ("FLAT 1", "110-114", 0, &["FLAT 1", "110-114 HIGH STREET"]),
        ("10B", "TOWER", 7, &["10B TOWER", "7 HIGH STREET"]),
        ("10B", "110-114", 7, &["10B 110-114", "7 HIGH STREET"]),
        ("FLAT 1", "TOWER", 7, &["FLAT 1", "TOWER", "7 HIGH STREET"]),
        (
            "FLAT 1",
            "110-114",
            7,
            &["FLAT 1", "110-114", "7 HIGH STREET"],
        ),
        ("FLAT 1", "", 9_999, &["FLAT 1", "9999 HIGH STREET"]),
    ];
    for (sub_building, building_name, number, expected) in table {
        let expected = [expected, &["HOLT", "AB1 9ZZ"]].concat();
        assert_eq!(printed(&at(sub_building, building_name, number)), expected);
    }
}

#[test]
fn concatenation_counts_only_for_sub_building_and_number() {
    let mark = |elements: Elements<'static>| Elements {
        concatenated: true,
        ..elements
    };
    assert_eq!(printed(&mark(at("A", "", 12)))[0], "12A HIGH STREET");
    assert_eq!(
        printed(&mark(at("FLAT 1", "", 12)))[0],
        "12FLAT 1 HIGH STREET"
    );
    for (sub_building, building_name, number) in [
        ("", "", 0),
        ("", "", 7),
        ("", "12A", 0),
        ("", "12A", 7),
        ("A", "TOWER", 0),
        ("A", "TOWER", 7),
        ("FLAT 1", "TOWER", 7),
    ] {
        let elements = at(sub_building, building_name, number);
        assert_eq!(printed(&mark(elements.clone())), printed(&elements));
    }
}

#[test]
fn the_front_goes_before_the_first_line_there_is() {
    let mut all = at("", "", 7);
    all.dependent_thoroughfare = b"SEASTONE";
    all.dependent_descriptor = b"COURT";
    all.double_dependent_locality = b"NETHERTHONG";
    all.dependent_locality = b"LOCKWOOD";
    let lines = "7 SEASTONE COURT/HIGH STREET/NETHERTHONG/LOCKWOOD/HOLT/AB1 9ZZ";
    assert_eq!(printed(&all).join("/"), lines);
    (all.dependent_thoroughfare, all.dependent_descriptor) = (b"", b"");
    assert_eq!(printed(&all)[0], "7 HIGH STREET");
    (all.thoroughfare, all.descriptor) = (b"", b"");
    assert_eq!(printed(&all)[0], "7 NETHERTHONG");
    all.double_dependent_locality = b"";
    assert_eq!(printed(&all)[0], "7 LOCKWOOD");
    all.dependent_locality = b"";
    assert_eq!(printed(&all), ["7 HOLT", "AB1 9ZZ"]);
}

#[test]
fn organisation_department_and_box_come_first() {
    let all = Elements {
        organisation: b"LEDA",
        department: b"STORES",
        po_box: b"HK860",
        ..at("FLAT 1", "", 7)
    };
    assert_eq!(
        printed(&all),
        [
            "LEDA",
            "STORES",
            "PO BOX HK860",
            "FLAT 1",
            "7 HIGH STREET",
            "HOLT",
            "AB1 9ZZ"
        ]
    );
    let department = Elements {
        organisation: b"",
        po_box: b"",
        ..all
    };
    assert_eq!(printed(&department)[..2], ["STORES", "FLAT 1"]);
}

#[test]
fn each_line_ends_with_byte_10() {
    assert_eq!(
        label_bytes(&at("", "", 7)),
        b"7 HIGH STREET\nHOLT\nAB1 9ZZ\n"
    );
    assert_eq!(label_bytes(&Elements::default()), b"");
}

/// A view whose texts all have their full width, with these premises.
fn widest(building_number: u32, numeric_like: bool) -> Pair {
    let filling = if numeric_like { "1" } else { "W" };
    let rows = vec![
        TableRow::locality(1, &"T".repeat(30), &"D".repeat(35), &"E".repeat(35)),
        TableRow::thoroughfare(1, &"N".repeat(60)),
        TableRow::descriptor(1, &"R".repeat(20)),
        TableRow::building(1, &filling.repeat(50)),
        TableRow::sub_building(1, &filling.repeat(30)),
    ];
    let view = View {
        outward: "DN55".to_string(),
        po_box: "123456".to_string(),
        locality: 1,
        thoroughfare: 1,
        descriptor: 1,
        dependent_thoroughfare: 1,
        dependent_descriptor: 1,
        building_number,
        building: 1,
        sub_building: 1,
        ..View::default()
    };
    let view = view.small_user(1, &"O".repeat(60), &"P".repeat(60));
    Pair::new(rows, vec![view])
}

#[test]
fn a_label_has_at_most_11_lines_and_499_bytes() {
    let pair = widest(9_999, false);
    let label = label_of(&pair.table, &pair.points, 1).expect("a label");
    assert_eq!(label.len(), 499);
    assert_eq!(label.iter().filter(|byte| **byte == 10).count(), 11);
}

#[test]
fn a_line_has_at_most_163_bytes() {
    let pair = widest(0, true);
    let label = label_of(&pair.table, &pair.points, 1).expect("a label");
    let longest = label.split(|byte| *byte == 10).map(<[u8]>::len).max();
    assert_eq!(longest, Some(163));
}
