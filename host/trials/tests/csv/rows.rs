//! Rows written from a pair of files and from a Mainfile set: answer and buffer.

use paper::make::{self, main_set, whole_view, worked_pair, Pair, Rng, TableRow, View};
use trials::around::Around;
use trials::csv::{main_row, main_rows, row, rows};
use trials::rooms::{label_rooms, refusal};
use trials::runs::Asked;
use trials::{agree, main_sets, samples};

/// Room for any row.
const ROW: usize = 499;

#[test]
fn every_row_of_random_pairs() {
    let mut rng = Rng::new(801);
    let mut reached = [0usize; 16];
    for _ in 0..500 {
        let Pair { table, points, .. } = &make::pair(&mut rng, 60);
        let views = agree::views(points);
        for view in (0..=views + 1).chain([1 << 32, u64::MAX]) {
            let answer = label_rooms(|room| row(table, points, view, room));
            reached[refusal(answer) as usize] += 1;
        }
    }
    for number in [0, 7, 8, 9, 15] {
        assert!(reached[number] > 100, "{number}: {reached:?}");
    }
}

#[test]
fn every_row_of_random_sets() {
    let mut rng = Rng::new(803);
    let mut reached = [0usize; 16];
    for _ in 0..250 {
        let made = main_set(&mut rng, 30);
        let views = main_sets::views(made.set());
        for view in (0..=views + 1).chain([u64::MAX]) {
            let answer = label_rooms(|room| main_row(made.set(), view, room));
            reached[refusal(answer) as usize] += 1;
        }
    }
    for number in [0, 7, 8, 9, 15] {
        assert!(reached[number] > 30, "{number}: {reached:?}");
    }
}

#[test]
fn every_run_of_random_pairs_and_sets() {
    let mut rng = Rng::new(805);
    let mut around = Around::new(ROW);
    for _ in 0..60 {
        let pair = make::pair(&mut rng, 20);
        let Pair { table, points, .. } = &pair;
        around.ask(&mut rng, pair.views.len() as u64, |asked| {
            rows(table, points, asked)
        });
    }
    around.reached(&[0, 7, 8, 9, 10, 15]);
    let mut around = Around::new(ROW);
    for _ in 0..40 {
        let made = main_set(&mut rng, 14);
        around.ask(&mut rng, made.addresses.len() as u64, |asked| {
            main_rows(made.set(), asked)
        });
    }
    around.reached(&[0, 7, 8, 9, 10, 15]);
}

/// Whatever the buffer's length, the row is written whole or not at all, and of a run as many as fit.
#[test]
fn buffers_of_every_length() {
    let Pair { table, points, .. } = &worked_pair();
    for room in 0..=ROW + 1 {
        let expected = match room {
            0..68 => 10 << 56 | 68,
            _ => 68,
        };
        assert_eq!(row(table, points, 1, room), expected);
        assert_eq!(row(table, points, 2, room), 9 << 56 | 6);
    }
    let Pair { table, points, .. } = &samples::labelled();
    let set = samples::main_set();
    for room in 0..2_000 {
        rows(table, points, Asked::new(1, 30, room));
        main_rows(set.set(), Asked::new(1, 30, room));
    }
}

/// Every field at its limit: 499 bytes with joined thoroughfares of 80, refused where one has 81.
#[test]
fn the_longest_row_and_one_byte_more() {
    let nines = |length| "9".repeat(length);
    for (descriptor, expected) in [(19, ROW as u64), (20, 15 << 56)] {
        let rows = vec![
            TableRow::locality(1, &nines(30), &nines(35), &nines(35)),
            TableRow::thoroughfare(2, &nines(60)),
            TableRow::descriptor(3, &nines(descriptor)),
            TableRow::descriptor(4, &nines(19)),
            TableRow::building(6, &nines(50)),
            TableRow::sub_building(7, &nines(30)),
        ];
        let view = View {
            outward: "EC1N".to_string(),
            locality: 1,
            thoroughfare: 2,
            descriptor: 4,
            dependent_thoroughfare: 2,
            dependent_descriptor: 3,
            building_number: 9_999,
            building: 6,
            sub_building: 7,
            po_box: nines(6),
            ..View::default()
        };
        let swapped = View {
            descriptor: 3,
            dependent_descriptor: 4,
            ..view.clone()
        };
        for view in [view, swapped] {
            let view = view.small_user(1, &nines(60), &nines(60));
            let Pair { table, points, .. } = &Pair::new(rows.clone(), vec![view]);
            assert_eq!(label_rooms(|room| row(table, points, 1, room)), expected);
        }
    }
}

/// Each text byte in each text: a comma and a quote are refused, no other.
#[test]
fn every_byte_of_every_text() {
    let (rows, view) = whole_view();
    let view = view.small_user(5, "BAY BATTERIES", "STORES");
    let bytes = (33..=126u8).filter(|byte| !byte.is_ascii_lowercase());
    for byte in bytes {
        let text = format!("X{}", char::from(byte));
        let refused = byte == b',' || byte == b'"';
        let with_rows = |rows: Vec<TableRow>, view: View| {
            let Pair { table, points, .. } = &Pair::new(rows, vec![view]);
            let answer = row(table, points, 1, ROW);
            assert_eq!(refusal(answer), if refused { 15 } else { 0 }, "{text}");
        };
        for index in 0..rows.len() {
            for place in 0..rows[index].texts.len() {
                let mut rows = rows.clone();
                rows[index].texts[0] = "HOLT".to_string();
                if place > 0 {
                    rows[index].texts[1] = "NORTH END".to_string();
                }
                rows[index].texts[place] = text.clone();
                with_rows(rows, view.clone());
            }
        }
        with_rows(rows.clone(), view.clone().small_user(5, &text, "STORES"));
        with_rows(rows.clone(), view.clone().large_user("", &text));
        let po_box = text.clone();
        with_rows(
            rows.clone(),
            View {
                po_box,
                ..view.clone()
            },
        );
    }
}

#[test]
fn damaged_files_come_first() {
    let mut rng = Rng::new(807);
    let mut blamed = [0usize; 3];
    for _ in 0..1_000 {
        let Pair {
            mut table,
            mut points,
            ..
        } = make::pair(&mut rng, 20);
        if rng.one_in(2) {
            make::scratch(&mut rng, &mut table);
        }
        make::scratch(&mut rng, &mut points);
        let answer = row(&table, &points, 1, ROW);
        let file = answer >> 52 & 15;
        blamed[file as usize] += 1;
        for asked in [Asked::new(1, 9, 999), Asked::new(0, 0, 0)] {
            let run = rows(&table, &points, asked);
            assert!(file == 0 || run == answer);
        }
    }
    assert!(blamed.into_iter().all(|times| times > 60), "{blamed:?}");
    for _ in 0..300 {
        let mut made = main_set(&mut rng, 12);
        let index = rng.below(7);
        make::scratch(&mut rng, &mut made.files[index]);
        let answer = main_row(made.set(), 1, ROW);
        let run = main_rows(made.set(), Asked::new(1, 3, 999));
        assert!(answer >> 52 & 15 == 0 || run == answer);
    }
}

/// All rows of the largest files in one call.
#[test]
fn a_run_over_the_largest_files() {
    let pair = make::exact_pair(&mut Rng::new(9), 20_000, 20_000).carried();
    let Pair {
        table,
        points,
        views,
        ..
    } = &pair;
    let room = ROW * views.len();
    let (mut ours, mut theirs) = (vec![7; room], vec![7; room]);
    let run = ttw::ask::csv_rows(table, points, 1, u64::MAX, &mut ours).expect("files");
    let plain = paper::csv::rows(table, points, 1, u64::MAX, &mut theirs).expect("files");
    assert_eq!((run.labels, run.bytes), (plain.labels, plain.bytes));
    assert_eq!(run.labels, views.len() as u64);
    assert!(ours == theirs, "the buffers differ");
    let csv = &ours[..run.bytes];
    assert_eq!(ttw::ask::csv(csv), Ok(run.labels));
}
