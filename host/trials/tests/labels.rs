//! Labels asked of a pair of files: the library against the second program, answer and buffer.

use paper::make::{self, Rng, TableRow, View};
use trials::agree;
use trials::rooms::{label_rooms, refusal};

#[test]
fn every_view_of_random_pairs() {
    let mut rng = Rng::new(41);
    let mut reached = [0usize; 13];
    for _ in 0..700 {
        let pair = make::pair(&mut rng, 60);
        let views = agree::views(&pair.points);
        for view in (0..=views + 1).chain([u64::MAX]) {
            let answer = label_rooms(|room| agree::label(&pair.table, &pair.points, view, room));
            reached[refusal(answer) as usize] += 1;
        }
    }
    for number in [0, 7, 8, 9] {
        assert!(reached[number] > 0, "no label was answered with {number}");
    }
}

#[test]
fn every_live_view_of_every_code() {
    let mut rng = Rng::new(43);
    for _ in 0..400 {
        let pair = make::pair(&mut rng, 60);
        let mut codes: Vec<Vec<u8>> = pair
            .views
            .iter()
            .map(|view| make::padded(&view.outward, 4))
            .collect();
        codes.push(make::outward(&mut rng));
        codes.push(make::bad_outward(&mut rng));
        codes.push(b"AB1".to_vec());
        codes.push(Vec::new());
        codes.sort();
        codes.dedup();
        for code in &codes {
            let live = agree::live(&pair.points, code);
            let most = if refusal(live) == 0 { live + 1 } else { 1 };
            for k in (0..=most).chain([u64::MAX]) {
                label_rooms(|room| agree::code_label(&pair.table, &pair.points, code, k, room));
            }
        }
    }
}

/// The rows of the combinations: a key for each text.
fn rows() -> Vec<TableRow> {
    vec![
        TableRow::locality(1, "HARTWELL BAY", "", ""),
        TableRow::locality(2, "HARTWELL BAY", "NORTH END", ""),
        TableRow::locality(3, "HARTWELL BAY", "NORTH END", "MILL GREEN"),
        TableRow::thoroughfare(1, "QUARRY"),
        TableRow::thoroughfare(2, "KILN"),
        TableRow::descriptor(1, "LANE"),
        TableRow::building(1, "110-114"),
        TableRow::building(2, "ROSE COTTAGE"),
        TableRow::sub_building(1, "1A"),
        TableRow::sub_building(2, "FLAT 1"),
    ]
}

/// The n-th combination: each choice takes its share of the number.
fn combination(mut n: u32) -> View {
    let mut choose = |choices: u32| {
        let choice = n % choices;
        n /= choices;
        choice
    };
    View {
        sub_building: choose(3),
        building: choose(3),
        building_number: choose(2) * 12,
        concatenation: if choose(2) == 0 { b' ' } else { b'Y' },
        thoroughfare: choose(2),
        descriptor: choose(2),
        dependent_thoroughfare: choose(2) * 2,
        dependent_descriptor: choose(2),
        locality: 1 + choose(3),
        ..View::default()
    }
}

#[test]
fn every_combination_of_elements() {
    let combinations = 3 * 3 * 2 * 2 * 2 * 2 * 2 * 2 * 3;
    let views = (0..combinations)
        .map(|n| View {
            address_key: n + 1,
            ..combination(n)
        })
        .collect();
    let pair = make::Pair::new(rows(), views);
    let mut reached = [0usize; 13];
    for view in 1..=u64::from(combinations) {
        let answer = label_rooms(|room| agree::label(&pair.table, &pair.points, view, room));
        reached[refusal(answer) as usize] += 1;
    }
    assert_eq!(reached[9], 0, "every key has a row");
    assert!(reached[0] > 0 && reached[8] > 0);
}

#[test]
fn damaged_files_come_first() {
    let mut rng = Rng::new(47);
    for _ in 0..1_500 {
        let pair = make::pair(&mut rng, 20);
        let (mut table, mut points) = (pair.table.clone(), pair.points.clone());
        match rng.below(3) {
            0 => make::scratch(&mut rng, &mut table),
            1 => make::scratch(&mut rng, &mut points),
            _ => {
                make::scratch(&mut rng, &mut table);
                make::scratch(&mut rng, &mut points);
            }
        }
        agree::label(&table, &points, 1, 499);
        agree::code_label(&table, &points, b"AB1 ", 1, 499);
        agree::code_label(&table, &points, b"ab1 ", 1, 499);
    }
}
