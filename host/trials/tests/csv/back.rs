//! Rows that the library writes, read back by it: each prints the label of its view, but where the concatenation mark
//! counts.

use paper::make::{self, guide, main_set, Pair, Rng, View};
use trials::samples;
use ttw::ask::{self, Refusal, LABEL};
use ttw::main_set::MainSet;

/// Whether a label needs the concatenation mark, for which a row has no field.
fn needs_mark(view: &View) -> bool {
    view.concatenation == b'Y'
        && view.sub_building > 0
        && view.building_number > 0
        && view.building == 0
}

/// How often both were the same, and how often they were not.
#[derive(Default)]
struct Back {
    same: usize,
    other: usize,
}

impl Back {
    /// Compares the label of a view with that of its row, each in all rooms around it.
    #[track_caller]
    fn compare(
        &mut self,
        view: &View,
        row: Result<Vec<u8>, Refusal>,
        label: impl Fn(&mut [u8]) -> u64,
    ) {
        let Ok(csv) = row else { return };
        assert_eq!(ask::csv(&csv), Ok(1), "{}", csv.escape_ascii());
        let length = label(&mut [0; LABEL]) as usize;
        for room in [0, length - 1, length, length + 1, LABEL] {
            let (mut straight, mut back) = (vec![7; room], vec![7; room]);
            let answers = [
                label(&mut straight),
                ttw::calls::csv_label(&csv, 1, &mut back),
            ];
            let same = answers[0] == answers[1] && straight == back;
            match needs_mark(view) {
                false => assert!(same, "{view:?}"),
                true => assert!(!same, "{view:?}"),
            }
        }
        match needs_mark(view) {
            false => self.same += 1,
            true => self.other += 1,
        }
    }
}

#[test]
fn rows_of_pairs() {
    let mut back = Back::default();
    let random = (0..400).map(|seed| make::pair(&mut Rng::new(8_000 + seed), 40));
    let carried = (0..200).map(|seed| make::pair(&mut Rng::new(9_000 + seed), 40).carried());
    let all = random.chain(carried);
    for pair in all.chain([samples::pair(), guide::pair()]) {
        let Pair {
            table,
            points,
            views,
            ..
        } = &pair;
        for (number, view) in (1..).zip(views) {
            let row = ask::csv_row(table, points, number);
            back.compare(view, row, |out| {
                ttw::calls::label(table, points, number, out)
            });
        }
    }
    assert!(
        back.same > 2_000 && back.other > 100,
        "{} {}",
        back.same,
        back.other
    );
}

#[test]
fn rows_of_sets() {
    let mut back = Back::default();
    let random = (0..300).map(|seed| main_set(&mut Rng::new(7_000 + seed), 30));
    for made in random.chain([samples::main_set()]) {
        let set = MainSet(made.set());
        for (number, address) in (1..).zip(&made.addresses) {
            back.compare(address, set.csv_row(number), |out| {
                ttw::main_calls::label(made.set(), number, out)
            });
        }
    }
    assert!(
        back.same > 500 && back.other > 30,
        "{} {}",
        back.same,
        back.other
    );
}

/// A run of rows is a file of which a run, in any room, gives the labels of the views.
#[test]
fn runs_of_rows_of_pairs() {
    let mut runs = 0;
    let mut rng = Rng::new(831);
    for _ in 0..250 {
        let made = make::pair(&mut rng, 24).carried();
        let unmarked = |view| View {
            concatenation: b' ',
            ..view
        };
        let views = made.views.into_iter().map(unmarked).collect();
        let Pair {
            table,
            points,
            views,
            ..
        } = &Pair::new(made.rows, views);
        for first in 1..=views.len() as u64 {
            let mut csv = vec![0; LABEL * views.len()];
            let run = ask::csv_rows(table, points, first, u64::MAX, &mut csv).expect("files");
            let (csv, count) = (&csv[..run.bytes], run.labels);
            assert_eq!(ask::csv(csv), Ok(count));
            for room in [rng.below(300), LABEL * count as usize] {
                let (mut back, mut straight) = (vec![7; room], vec![7; room]);
                let from_rows = ask::csv_labels(csv, 1, count, &mut back);
                let from_files = ask::labels(table, points, first, count, &mut straight);
                assert_eq!(from_rows, from_files);
                assert!(back == straight, "{count} from {first} in {room} bytes");
            }
            runs += usize::from(count > 2);
        }
    }
    assert!(runs > 150, "{runs}");
}

#[test]
fn runs_of_rows_of_sets() {
    let mut runs = 0;
    for seed in 0..150 {
        let made = main_set(&mut Rng::new(6_000 + seed), 24);
        let set = MainSet(made.set());
        let views = made.addresses.len();
        for first in 1..=views as u64 {
            let mut csv = vec![0; LABEL * views];
            let run = set.csv_rows(first, u64::MAX, &mut csv).expect("files");
            let (csv, count) = (&csv[..run.bytes], run.labels as usize);
            assert_eq!(ask::csv(csv), Ok(run.labels));
            let of_run = &made.addresses[first as usize - 1..][..count];
            if of_run.iter().any(needs_mark) {
                continue;
            }
            let room = LABEL * count;
            let (mut back, mut straight) = (vec![7; room], vec![7; room]);
            let from_rows = ask::csv_labels(csv, 1, run.labels, &mut back);
            let from_files = set.labels(first, run.labels, &mut straight);
            assert_eq!(from_rows, from_files);
            assert!(back == straight, "{count} from {first}");
            runs += usize::from(count > 1);
        }
    }
    assert!(runs > 50, "{runs}");
}
