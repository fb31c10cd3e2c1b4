//! What the program `labels` prints.

use paper::make::{exact_pair, point_file, table_file, worked_pair, Rng, TableRow, View};
use paper::report;

fn printed(changes1: Option<&[u8]>, changes2: Option<&[u8]>) -> String {
    String::from_utf8_lossy(&report(changes1, changes2)).into_owned()
}

#[test]
fn absent_and_empty_files_are_refused_with_1() {
    let pair = worked_pair();
    let (table, points) = (Some(&pair.table[..]), Some(&pair.points[..]));
    assert_eq!(printed(None, None), "table refused 1 0\n");
    assert_eq!(printed(Some(b""), points), "table refused 1 0\n");
    assert_eq!(printed(None, points), "table refused 1 0\n");
    assert_eq!(printed(table, None), "points refused 1 0\n");
    assert_eq!(printed(table, Some(b"")), "points refused 1 0\n");
}

#[test]
fn a_refused_file_gives_one_line_the_table_file_first() {
    let pair = worked_pair();
    let mut bad_table = pair.table.clone();
    bad_table[3 * 169 + 24] = b'a';
    let mut bad_points = pair.points.clone();
    bad_points[2 * 168 + 14] = b'Q';
    let (table, points) = (Some(&pair.table[..]), Some(&pair.points[..]));
    assert_eq!(printed(Some(&bad_table), points), "table refused 4 4 25\n");
    assert_eq!(printed(table, Some(&bad_points)), "points refused 4 3 15\n");
    assert_eq!(
        printed(Some(&bad_table), Some(&bad_points)),
        "table refused 4 4 25\n"
    );
}

#[test]
fn longer_than_300_records_is_long() {
    let rng = &mut Rng::new(1);
    let short = worked_pair();
    let exact = exact_pair(rng, 300, 300);
    let long = exact_pair(rng, 301, 301);
    let (table, points) = (Some(&short.table[..]), Some(&short.points[..]));
    assert!(printed(Some(&exact.table), Some(&exact.points)).starts_with("pair 300 300 "));
    assert_eq!(printed(Some(&long.table), points), "table long\n");
    assert_eq!(printed(table, Some(&long.points)), "points long\n");
    assert_eq!(
        printed(Some(&long.table), Some(&long.points)),
        "table long\n"
    );
    assert_eq!(printed(None, Some(&long.points)), "table refused 1 0\n");
}

#[test]
fn a_byte_more_than_300_records_is_long() {
    let pair = worked_pair();
    let (table, points) = (Some(&pair.table[..]), Some(&pair.points[..]));
    assert_eq!(
        printed(Some(&[b' '; 300 * 169]), points),
        "table refused 2 1\n"
    );
    assert_eq!(
        printed(Some(&[b' '; 300 * 169 + 1]), points),
        "table long\n"
    );
    assert_eq!(
        printed(table, Some(&[b' '; 300 * 168])),
        "points refused 2 1\n"
    );
    assert_eq!(
        printed(table, Some(&[b' '; 300 * 168 + 1])),
        "points long\n"
    );
}

#[test]
fn files_without_rows_and_views_give_the_first_line_only() {
    let table = table_file(&[]);
    let points = point_file(&[]);
    assert_eq!(printed(Some(&table), Some(&points)), "pair 2 2 0\n");
}

#[test]
fn every_view_has_its_number_letter_and_answer() {
    let table = table_file(&[TableRow::locality(1, "HOLT", "", "")]);
    let home = View {
        locality: 1,
        ..View::default()
    };
    let views = [
        View {
            letter: b'B',
            ..home.clone()
        },
        View {
            letter: b'C',
            ..home.clone()
        }
        .small_user(5, "LEDA", ""),
        View {
            letter: b'D',
            sub_building: 3,
            address_key: 8,
            ..home.clone()
        },
        View {
            locality: 0,
            address_key: 9,
            ..home
        },
    ];
    let expected = "pair 3 7 4\n\
        view 1 B\nHOLT\nAB1 9ZZ\n\
        view 2 C\nLEDA\nHOLT\nAB1 9ZZ\n\
        view 3 D\nrefused 8 1\n\
        view 4 I\nrefused 9 1\n";
    assert_eq!(printed(Some(&table), Some(&point_file(&views))), expected);
}
