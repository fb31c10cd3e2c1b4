//! Random files and packs: what the makers call accepted is accepted and has
//! every case; nothing panics, whatever the damage.

use paper::make::{
    damaged_points, damaged_table, exact_pair, pack_draft, pair, scratch, Edition, Pair, Place,
    Rng, View, FIRST,
};
use paper::{
    build, check_points, check_table, code_label, label, label_of, letter, live, open, pack_label,
    pack_suffix, point_fault, report, sector, table_fault, views, Refusal,
};

#[test]
fn random_pairs_are_accepted_and_have_every_case() {
    let mut premises = [0; 8];
    let mut letters = [0; 4];
    let mut followers = [0; 3];
    let mut marks = 0;
    for seed in 0..2_000 {
        let rng = &mut Rng::new(seed);
        let most_records = 2 + rng.below(60);
        let pair = pair(rng, most_records);
        let point_records: usize = pair.views.iter().map(|view| view.records().len()).sum();
        assert_eq!(check_table(&pair.table), Ok(pair.rows.len() + 2));
        assert_eq!(check_points(&pair.points), Ok(point_records + 2));
        assert_eq!(views(&pair.points), Ok(pair.views.len()));
        assert!(pair.rows.len() + 2 <= most_records && point_records + 2 <= most_records);
        for (number, view) in (1..).zip(&pair.views) {
            assert_eq!(letter(&pair.points, number), Ok(view.letter));
            premises[premises_case(view)] += 1;
            letters[b"BCDI"
                .iter()
                .position(|l| *l == view.letter)
                .expect("a letter")] += 1;
            let kind = view
                .follower
                .as_ref()
                .map_or(0, |f| usize::from(f.record_type) - 1);
            followers[kind] += 1;
            marks += usize::from(view.concatenation == b'Y');
        }
    }
    println!("{premises:?} {letters:?} {followers:?} {marks}");
    assert!(premises.iter().all(|count| *count > 50));
    assert!(letters.iter().all(|count| *count > 50));
    assert!(followers.iter().all(|count| *count > 50));
    assert!(marks > 50);
}

/// Which of sub building, building name and number a view has, as three bits.
fn premises_case(view: &View) -> usize {
    usize::from(view.sub_building > 0) * 4
        + usize::from(view.building > 0) * 2
        + usize::from(view.building_number > 0)
}

#[test]
fn exact_pairs_have_exactly_their_records() {
    for (table_records, point_records) in [(2, 2), (3, 5), (12, 3), (300, 300), (1_000, 77)] {
        let rng = &mut Rng::new(4);
        let pair = exact_pair(rng, table_records, point_records);
        assert_eq!(check_table(&pair.table), Ok(table_records));
        assert_eq!(check_points(&pair.points), Ok(point_records));
    }
}

#[test]
fn the_same_seed_gives_the_same_files() {
    let make = |seed| pair(&mut Rng::new(seed), 40);
    assert_eq!(make(6).table, make(6).table);
    assert_eq!(make(6).points, make(6).points);
    assert_ne!(make(6).table, make(7).table);
}

/// Every call, with any files and numbers. All have to answer, and a label has
/// to keep document 01's bounds.
fn call_all(table: &[u8], points: &[u8], code: &[u8], number: u64) {
    let mut out = [0; 499];
    let _ = check_table(table);
    let _ = check_points(points);
    let _ = table_fault(table);
    let _ = point_fault(points);
    let _ = views(points);
    let _ = letter(points, number);
    let _ = live(points, code);
    let _ = build(table, points, code, &mut [0; 3_000]);
    let _ = report(Some(table), Some(points));
    let answers = [
        label(table, points, number, &mut out),
        code_label(table, points, code, number, &mut out),
        pack_label(table, number, &mut out),
    ];
    for answer in answers {
        assert!(answer.map_or_else(|why| why.number != 10, |written| written <= 499));
    }
}

#[test]
fn scratched_files_always_get_an_answer() {
    let (mut accepted, mut refused) = (0, 0);
    for seed in 0..3_000 {
        let rng = &mut Rng::new(seed);
        let Pair {
            mut table,
            mut points,
            views,
            ..
        } = pair(rng, 12);
        scratch(rng, &mut table);
        scratch(rng, &mut points);
        let code = views
            .first()
            .map_or("AB1 ".to_string(), |v| format!("{:4}", v.outward));
        for number in [0, 1, 2, u64::MAX] {
            call_all(&table, &points, code.as_bytes(), number);
        }
        match check_table(&table).and(check_points(&points)) {
            Ok(_) => accepted += 1,
            Err(_) => refused += 1,
        }
    }
    assert!(accepted > 100 && refused > 100, "{accepted} {refused}");
}

#[test]
fn damaged_files_always_get_an_answer() {
    for seed in 0..200 {
        let rng = &mut Rng::new(seed);
        let number = rng.within(2, 6) as u8;
        let table = damaged_table(rng, number, Place::Middle);
        let points = damaged_points(rng, number, Place::Middle);
        let mut table = table.map(|damaged| damaged.file).unwrap_or_default();
        let mut points = points.map(|damaged| damaged.file).unwrap_or_default();
        scratch(rng, &mut table);
        scratch(rng, &mut points);
        call_all(&table, &points, b"AB1 ", 1);
    }
}

#[test]
fn any_bytes_get_an_answer() {
    for seed in 0..2_000 {
        let rng = &mut Rng::new(seed);
        let mut some = |length: usize| -> Vec<u8> { (0..length).map(|_| rng.byte()).collect() };
        let (table, points, code) = (some(169 * 3), some(168 * 3), some(4));
        let cut = seed as usize % 400;
        call_all(&table, &points, &code, seed);
        call_all(&table[cut..], &points[cut..], &code[..cut % 5], seed);
    }
}

#[test]
fn random_packs_open_and_print_every_point() {
    let mut points = 0;
    for seed in 0..3_000 {
        let rng = &mut Rng::new(seed);
        let bound = rng.below(40);
        let draft = pack_draft(rng, bound);
        let pack = draft.bytes();
        assert_eq!(open(&pack), Ok(draft.points.len()));
        for k in 1..=draft.points.len() as u64 {
            let mut out = [0; 499];
            let written = pack_label(&pack, k, &mut out).expect("a label");
            let lines = out[..written].iter().filter(|byte| **byte == 10).count();
            assert!((2..=11).contains(&lines));
            points += 1;
        }
    }
    assert!(points > 10_000);
}

#[test]
fn scratched_packs_always_get_an_answer() {
    let mut opened = [0; 5];
    for seed in 0..20_000 {
        let rng = &mut Rng::new(seed);
        let mut pack = pack_draft(rng, 12).bytes();
        scratch(rng, &mut pack);
        let answer = open(&pack);
        opened[answer.map_or_else(|why| why.detail as usize, |_| 0)] += 1;
        for k in [0, 1, 2, u64::MAX] {
            let label = pack_label(&pack, k, &mut [0; 499]).err();
            assert_eq!(answer.is_err(), label.is_some_and(|why| why.number == 11));
            let suffix = pack_suffix(&pack, k).err();
            let edition = Edition::of(&pack);
            let expected = match (label, edition) {
                (None, Some(FIRST)) => Some(Refusal::new(13, 0)),
                _ => label,
            };
            assert_eq!(suffix, expected, "{k}, {edition:?}");
        }
        for digit in [0, 9] {
            assert_eq!(sector(&pack, digit).err(), answer.err(), "{digit}");
        }
    }
    println!("{opened:?}");
    assert!(opened.iter().all(|count| *count > 500));
}

#[test]
fn labels_by_code_are_the_labels_of_the_live_views_in_order() {
    for seed in 0..300 {
        let rng = &mut Rng::new(seed);
        let pair = pair(rng, 30);
        for first in &pair.views {
            let code = format!("{:4}", first.outward);
            let mut k = 0;
            for (number, view) in (1..).zip(&pair.views) {
                if view.is_live() && view.outward == first.outward {
                    k += 1;
                    let mut out = [0; 499];
                    let (table, points) = (&pair.table, &pair.points);
                    let written = code_label(table, points, code.as_bytes(), k, &mut out);
                    let bytes = written.map(|written| out[..written].to_vec());
                    assert_eq!(bytes, label_of(table, points, number));
                }
            }
            assert_eq!(live(&pair.points, code.as_bytes()), Ok(k as usize));
        }
    }
}
