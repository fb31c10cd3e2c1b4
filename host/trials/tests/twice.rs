//! Document 02, No. 3: a key that comes twice. The last row for it is in force,
//! unless its letter is B or D.

use paper::make::{point_file, table_file, Pair, TableRow, View, BUILT};
use trials::agree;
use trials::packs::{ask, built};
use trials::rooms::{label_rooms, pack_rooms};
use ttw::ask::Refusal;

const CODE: &[u8] = b"AB1 ";

/// A building name of a day and a letter, always of the same key.
fn building(text: &str, date: u32, letter: u8) -> TableRow {
    TableRow {
        date,
        letter,
        ..TableRow::building(9, text)
    }
}

/// A pair with one live view that names that building, and these rows for it.
fn pair_of(buildings: &[TableRow]) -> Pair {
    let rows = [
        &[TableRow::locality(1, "HARTWELL BAY", "", "")],
        buildings,
        &[TableRow::sub_building(9, "ATTIC FLAT")],
    ]
    .concat();
    let views = vec![View {
        locality: 1,
        building: 9,
        sub_building: 9,
        ..View::default()
    }];
    Pair {
        table: table_file(&rows),
        points: point_file(&views),
        rows,
        views,
    }
}

/// The label of the one view, by view and by code, as both programs give it.
#[track_caller]
fn label(pair: &Pair) -> Result<String, Refusal> {
    let (table, points) = (&pair.table, &pair.points);
    label_rooms(|room| agree::label(table, points, 1, room));
    label_rooms(|room| agree::code_label(table, points, CODE, 1, room));
    let label = ttw::ask::label(table, points, 1);
    assert_eq!(label, ttw::ask::code_label(table, points, CODE, 1));
    label.map(|label| String::from_utf8(label).expect("a label is text"))
}

/// The pack of the code, as both programs give it: the texts of its rows.
#[track_caller]
fn pack(pair: &Pair) -> Option<Vec<u8>> {
    pack_rooms(|room| agree::build(&pair.table, &pair.points, CODE, room));
    let pack = built(pair, CODE)?;
    assert_eq!(ask(&pack), 1);
    let rows = pack.len() - BUILT.point - BUILT.trailer;
    Some(pack[..rows].to_vec())
}

fn refused(number: u8, detail: u64, file: u8) -> Refusal {
    Refusal {
        number,
        file,
        second: 0,
        detail,
    }
}

#[test]
fn a_respelt_building_prints_the_last_spelling() {
    let pair = pair_of(&[
        building("ROSE COTAGE", 20_110_901, b'I'),
        building("ROSE COTTAGE", 20_110_915, b'C'),
    ]);
    assert_eq!(agree::table(&pair.table), 6);
    assert_eq!(
        label(&pair).as_deref(),
        Ok("ATTIC FLAT\nROSE COTTAGE\nHARTWELL BAY\nAB1 9ZZ\n")
    );
}

#[test]
fn its_pack_holds_the_last_spelling_once_and_no_other() {
    let pair = pair_of(&[
        building("ROSE COTAGE", 20_110_901, b'I'),
        building("ROSE COTTAGE", 20_110_915, b'C'),
    ]);
    let rows = b"\x01\x0cHARTWELL BAY\0\0\x04\x0cROSE COTTAGE\x05\x0aATTIC FLAT";
    assert_eq!(pack(&pair).as_deref(), Some(&rows[..]));
}

#[test]
fn of_letters_at_one_time_the_highest_is_in_force() {
    let last = |letters: &[u8]| {
        let rows: Vec<TableRow> = (letters.iter())
            .map(|letter| building(&format!("HOUSE {}", *letter as char), 7, *letter))
            .collect();
        label(&pair_of(&rows)).map(|label| label.contains("HOUSE C\n"))
    };
    assert_eq!(last(b" BC"), Ok(true));
    assert_eq!(last(b"BC"), Ok(true));
    assert_eq!(last(b"C"), Ok(true));
    assert_eq!(last(b"BCI"), Ok(false));
    assert_eq!(last(b"BCD"), Err(refused(9, 6, 0)));
}

#[test]
fn a_last_row_of_letter_b_or_d_is_none() {
    for letter in *b"BD" {
        for rows in [
            vec![building("ROSE COTTAGE", 20_110_901, letter)],
            vec![
                building("ROSE COTTAGE", 20_110_901, b'I'),
                building("ROSE COTTAGE", 20_110_915, letter),
            ],
        ] {
            let pair = pair_of(&rows);
            assert_eq!(label(&pair), Err(refused(9, 6, 0)));
            assert_eq!(pack(&pair), None);
            let refusal = Refusal {
                second: 1,
                ..refused(9, 6, 0)
            };
            let cut = ttw::ask::build(&pair.table, &pair.points, CODE, 0);
            assert_eq!(cut, Err(refusal));
        }
    }
}

#[test]
fn a_row_deleted_and_inserted_again_is_in_force() {
    for letter in *b"BD" {
        let pair = pair_of(&[
            building("ROSE COTTAGE", 20_110_901, letter),
            building("ROSE HOUSE", 20_110_915, b'I'),
        ]);
        assert!(label(&pair).is_ok_and(|label| label.contains("ROSE HOUSE")));
        let rows = b"\x01\x0cHARTWELL BAY\0\0\x04\x0aROSE HOUSE\x05\x0aATTIC FLAT";
        assert_eq!(pack(&pair).as_deref(), Some(&rows[..]));
    }
}

#[test]
fn a_row_that_ends_leaves_the_others() {
    let ended = building("ROSE COTTAGE", 7, b'D');
    let mut pair = pair_of(&[ended]);
    pair.views[0].building = 0;
    pair.views[0].building_number = 5;
    pair.points = point_file(&pair.views);
    let rows = b"\x01\x0cHARTWELL BAY\0\0\x05\x0aATTIC FLAT";
    assert_eq!(pack(&pair).as_deref(), Some(&rows[..]));
}

#[test]
fn the_same_24_bytes_twice_are_5() {
    let pair = pair_of(&[building("A", 7, b'C'), building("B", 7, b'C')]);
    assert_eq!(label(&pair), Err(refused(5, 4, 1)));
}

#[test]
fn falling_24_bytes_are_5() {
    let date = [building("A", 7, b'C'), building("B", 6, b'C')];
    let letter = [building("A", 7, b'C'), building("B", 7, b'B')];
    let time = [
        TableRow {
            time: 101_501,
            ..building("A", 7, b'C')
        },
        TableRow {
            time: 101_500,
            ..building("B", 7, b'C')
        },
    ];
    for rows in [date, letter, time] {
        assert_eq!(label(&pair_of(&rows)), Err(refused(5, 4, 1)));
        let [first, second] = rows;
        assert!(label(&pair_of(&[second, first])).is_ok());
    }
}
