//! Rows written from a pair of files and from a Mainfile set.

use paper::csv::{main_row, main_rows, row, rows};
use paper::make::{
    main_set, padded, pair, set_of_pair, worked_pair, Pair, Rng, TableRow, View, FORBIDDEN, MISSING,
};
use paper::make::{whole_view, MainSet, Organisation};
use paper::{label, packed_run, Refusal};

/// What a buffer holds before a call.
const BEFORE: u8 = 0xA5;

/// The row of a view in a buffer of so many bytes, and the whole buffer.
fn in_room(pair: &Pair, view: u64, room: usize) -> (Result<usize, Refusal>, Vec<u8>) {
    let mut out = vec![BEFORE; room];
    let answer = row(&pair.table, &pair.points, view, &mut out);
    (answer, out)
}

/// The row of the first view of these rows.
fn row_of(rows: Vec<TableRow>, view: View) -> Result<String, Refusal> {
    let (answer, out) = in_room(&Pair::new(rows, vec![view]), 1, 499);
    answer.map(|length| String::from_utf8_lossy(&out[..length]).into_owned())
}

/// Document 01's view 1: 68 bytes in the issue's own words.
#[test]
fn the_worked_view() {
    let pair = worked_pair();
    let expected = b"AB1 9ZZ,HARTWELL BAY,,,QUARRY LANE,,,110-114,ATTIC FLAT,,,,,S, ,1A\r\n";
    assert_eq!(expected.len(), 68);
    for room in 0..68 {
        let refused = Err(Refusal::new(10, 68));
        assert_eq!(in_room(&pair, 1, room), (refused, vec![BEFORE; room]));
    }
    for room in [68, 69, 499] {
        let (answer, out) = in_room(&pair, 1, room);
        assert_eq!(answer, Ok(68));
        assert_eq!(out[..68], *expected);
        assert_eq!(out[68..], vec![BEFORE; room - 68]);
    }
    assert_eq!(in_room(&pair, 2, 99).0, Err(Refusal::new(9, 6)));
    assert_eq!(in_room(&pair, 3, 99).0, Err(Refusal::new(7, 0)));
    assert_eq!(in_room(&pair, 0, 99).0, Err(Refusal::new(7, 0)));
}

/// Every field that a view can fill, each with a text of its own.
fn everything() -> (Vec<TableRow>, View) {
    let (mut rows, view) = whole_view();
    rows[0] = TableRow::locality(1, "HOLT", "NORTH END", "MILL GREEN");
    let view = View {
        building_number: 12,
        po_box: "70".to_string(),
        suffix: "2B".to_string(),
        concatenation: b'Y',
        ..view
    };
    (rows, view.small_user(5, "BAY BATTERIES", "STORES"))
}

#[test]
fn every_field_in_its_place() {
    let (rows, view) = everything();
    assert_eq!(
        row_of(rows.clone(), view.clone()).as_deref(),
        Ok(
            "AB1 9ZZ,HOLT,NORTH END,MILL GREEN,HIGH STREET,SEASTONE COURT,12,THE MANOR,FLAT 1,70,\
            STORES,BAY BATTERIES,,S,Y,2B\r\n"
        )
    );
    let large = View {
        outward: "EC1N".to_string(),
        descriptor: 0,
        dependent_descriptor: 0,
        letter: b'D',
        indicator: b' ',
        ..view.large_user("", "METERS")
    };
    assert_eq!(
        row_of(rows, large).as_deref(),
        Ok(
            "EC1N 9ZZ,HOLT,NORTH END,MILL GREEN,HIGH,SEASTONE,12,THE MANOR,FLAT 1,70,METERS,,,L, ,\
            2B\r\n"
        )
    );
}

#[test]
fn the_number_has_no_leading_zeros_and_zero_is_empty() {
    for (number, shown) in [(0, ""), (7, "7"), (10, "10"), (9_999, "9999")] {
        let (rows, view) = everything();
        let view = View {
            building_number: number,
            ..view
        };
        let row = row_of(rows, view).expect("a row");
        assert_eq!(row.split(',').nth(6), Some(shown));
    }
}

/// The longest row has 499 bytes: all fields at their limits, the UDPRN empty.
#[test]
fn the_longest_row() {
    let nines = |length| "9".repeat(length);
    let rows = vec![
        TableRow::locality(1, &nines(30), &nines(35), &nines(35)),
        TableRow::thoroughfare(2, &nines(60)),
        TableRow::descriptor(3, &nines(19)),
        TableRow::building(6, &nines(50)),
        TableRow::sub_building(7, &nines(30)),
    ];
    let view = View {
        outward: "EC1N".to_string(),
        locality: 1,
        thoroughfare: 2,
        descriptor: 3,
        dependent_thoroughfare: 2,
        dependent_descriptor: 3,
        building_number: 9_999,
        building: 6,
        sub_building: 7,
        po_box: nines(6),
        ..View::default()
    };
    let view = view.small_user(1, &nines(60), &nines(60));
    let row = row_of(rows, view).expect("a row");
    assert_eq!(row.len(), 499);
}

/// A comma or a quote in any text, or a thoroughfare of more than 80 bytes with
/// its descriptor.
#[test]
fn what_a_row_cannot_carry_is_refused_with_15() {
    let (rows, view) = everything();
    let texts = rows.iter().map(|row| row.texts.len());
    let places: Vec<(usize, usize)> = texts
        .enumerate()
        .flat_map(|(row, count)| (0..count).map(move |text| (row, text)))
        .collect();
    assert_eq!(places.len(), 9);
    for mark in [",", "\"", "A,B", "A\"", "\"A\""] {
        for (row, text) in &places {
            let mut rows = rows.clone();
            rows[*row].texts[*text] = mark.to_string();
            assert_eq!(row_of(rows, view.clone()), Err(Refusal::new(15, 0)));
        }
        for view in [
            view.clone().small_user(5, mark, ""),
            view.clone().large_user("", mark),
            View {
                po_box: mark.to_string(),
                ..view.clone()
            },
        ] {
            assert_eq!(row_of(rows.clone(), view), Err(Refusal::new(15, 0)));
        }
    }
}

#[test]
fn a_joined_thoroughfare_has_at_most_80_bytes() {
    for (name, descriptor, fits) in [(59, 20, true), (60, 19, true), (60, 20, false)] {
        for (thoroughfare, text) in [(1, 3), (2, 4)] {
            let (mut rows, view) = everything();
            rows[thoroughfare].texts[0] = "X".repeat(name);
            rows[text].texts[0] = "X".repeat(descriptor);
            assert_eq!(row_of(rows, view).is_ok(), fits);
        }
    }
}

/// 7, 8 and 9 come before 15, and 15 before 10.
#[test]
fn the_order_of_refusals() {
    let (mut rows, view) = whole_view();
    rows[0].texts[0] = "A,B".to_string();
    let pair = Pair::new(rows.clone(), vec![view.clone()]);
    assert_eq!(in_room(&pair, 1, 0).0, Err(Refusal::new(15, 0)));
    assert_eq!(in_room(&pair, 2, 0).0, Err(Refusal::new(7, 0)));
    for (change, rule) in FORBIDDEN {
        let mut view = view.clone();
        change(&mut view);
        assert_eq!(row_of(rows.clone(), view), Err(Refusal::new(8, rule)));
    }
    for (field, change) in (1..=7).zip(MISSING) {
        let mut view = view.clone();
        change(&mut view);
        assert_eq!(row_of(rows.clone(), view), Err(Refusal::new(9, field)));
    }
    let refused = |table: &[u8], points: &[u8]| row(table, points, 1, &mut []);
    let Pair { table, points, .. } = &pair;
    let of_file = |file| Err(Refusal::of_file(file, 1, 0));
    assert_eq!(refused(&table[1..], &points[1..]), of_file(1));
    assert_eq!(refused(table, &points[1..]), of_file(2));
}

/// A row is refused where the label is, or with 15; whatever the letter.
#[test]
fn a_row_for_each_label() {
    let mut counts = [0; 3];
    for seed in 0..300 {
        let Pair {
            table,
            points,
            views,
            ..
        } = &pair(&mut Rng::new(seed), 40);
        for view in 0..views.len() as u64 + 2 {
            let printed = label(table, points, view, &mut [0; 499]);
            let written = row(table, points, view, &mut [0; 499]);
            match (printed, written) {
                (Ok(_), Ok(_)) => counts[0] += 1,
                (Ok(_), Err(why)) if why == Refusal::new(15, 0) => counts[1] += 1,
                (Err(label), Err(row)) if label == row => counts[2] += 1,
                other => panic!("{other:?}"),
            }
        }
    }
    assert!(counts.into_iter().all(|count| count > 100), "{counts:?}");
}

/// A run is each row in turn, in what is left, from a pair and from a set.
#[test]
fn a_run_is_each_row_in_turn() {
    let mut stops = [0; 16];
    for seed in 0..200 {
        let rng = &mut Rng::new(seed);
        let pair = pair(rng, 16);
        let set = main_set(rng, 12);
        for room in [0, rng.below(300), 499 * 12] {
            let Pair {
                table,
                points,
                views,
                ..
            } = &pair;
            compare(
                views.len() as u64,
                room,
                &mut stops,
                |first, count, out, bytes| {
                    packed_run(rows(table, points, first, count, out), bytes)
                },
                |view, out| row(table, points, view, out),
            );
            let set = set.set();
            compare(
                set[6].len() as u64 / 88 - 2,
                room,
                &mut stops,
                |first, count, out, bytes| packed_run(main_rows(set, first, count, out), bytes),
                |view, out| main_row(set, view, out),
            );
        }
    }
    for number in [0, 7, 8, 9, 10, 15] {
        assert!(stops[number] > 20, "{number}: {stops:?}");
    }
}

/// Runs from every number around those that there are, beside single rows.
fn compare(
    numbers: u64,
    room: usize,
    stops: &mut [usize; 16],
    run: impl Fn(u64, u64, &mut [u8], &mut u64) -> u64,
    one: impl Fn(u64, &mut [u8]) -> Result<usize, Refusal>,
) {
    for first in 0..=numbers + 1 {
        for count in (0..=numbers + 1).chain([u64::MAX]) {
            let (mut ours, mut turned) = (vec![BEFORE; room], vec![BEFORE; room]);
            let (mut told, mut bytes) = (4711, 0);
            let answer = run(first, count, &mut ours, &mut told);
            let mut expected = count;
            for written in 0..count {
                match one(first + written, &mut turned[bytes..]) {
                    Ok(length) => bytes += length,
                    Err(why) => {
                        let second = written;
                        expected = Refusal { second, ..why }.packed();
                        break;
                    }
                }
            }
            assert_eq!((answer, told), (expected, bytes as u64));
            assert!(ours == turned, "{count} from {first} in {room} bytes");
            stops[(answer >> 56) as usize] += 1;
        }
    }
}

/// The same elements have the same row from a pair and from a set.
#[test]
fn a_pair_and_the_set_that_says_the_same() {
    let mut written = 0;
    for seed in 0..200 {
        let pair = pair(&mut Rng::new(seed), 30);
        let made = set_of_pair(&pair);
        for (number, address) in (1..).zip(&made.addresses) {
            let (mut from_set, mut from_pair) = ([BEFORE; 499], [BEFORE; 499]);
            let of_set = main_row(made.set(), number, &mut from_set);
            let view = u64::from(address.address_key);
            let of_pair = row(&pair.table, &pair.points, view, &mut from_pair);
            assert_eq!(of_set, of_pair);
            assert!(from_set == from_pair, "{address:?}");
            written += usize::from(of_set.is_ok());
        }
    }
    assert!(written > 400, "{written}");
}

/// A large user of a set whose organisation has no row: 9, field 8.
#[test]
fn a_set_lacks_an_organisation() {
    let (rows, view) = whole_view();
    let large = View {
        postcode_type: b'L',
        ..view
    };
    let row_in = |organisations| {
        let set = MainSet::new(rows.clone(), organisations, vec![large.clone()]);
        main_row(set.set(), 1, &mut [0; 499])
    };
    assert_eq!(row_in(vec![]), Err(Refusal::new(9, 8)));
    assert!(row_in(vec![Organisation::new(b'L', 1, "", "")]).is_ok());
    let first = MainSet::new(rows.clone(), vec![], vec![]);
    let mut files = first.files.clone();
    files[0] = padded("", 151);
    let set = files.each_ref().map(Vec::as_slice);
    assert_eq!(main_row(set, 1, &mut []), Err(Refusal::of_file(1, 1, 0)));
}
