//! What the calls are made on: cases of the fuzzer, and cases in which a file or
//! the pack is one of the makers' damaged ones, of the samples or of the kept
//! packs, or the CSV file or the book one of the makers'.

use crate::driver::root;
use fuzz::case::{self, Case};
use fuzz::mutate;
use paper::make::{self, Pair, Place, Rng, View};
use std::fs;
use std::path::Path;

/// The seed of all that is made here.
const SEED: u64 = 17;

/// How much of it: so many cases of the fuzzer, and one in so many of the others.
#[derive(Clone, Copy)]
pub struct Part {
    fuzzed: u64,
    one_in: usize,
}

/// What the gate tries, and all that there is.
pub const SHORT: Part = Part {
    fuzzed: 120,
    one_in: 4,
};
pub const WHOLE: Part = Part {
    fuzzed: 1_500,
    one_in: 1,
};

/// What is put into a case.
enum Put {
    Table(Vec<u8>),
    Points(Vec<u8>),
    /// A pair of files and the number of a view.
    Pair(Vec<u8>, Vec<u8>, u64),
    /// A pack and the number of a point.
    Pack(Vec<u8>, u64),
    /// A file of a Mainfile set, by its place in it.
    MainFile(usize, Vec<u8>),
    /// A Mainfile set and the number of a view.
    Set([Vec<u8>; 7], u64),
    /// A CSV file and the number of a row.
    Csv(Vec<u8>, u64),
    /// A book.
    Book(Vec<u8>),
    /// A book, a month's files and the number of a view.
    Month(Vec<u8>, Pair, u64),
}

impl Put {
    fn into_case(self, mut case: Case) -> Case {
        match self {
            Put::Table(file) => case.files.table = file,
            Put::Points(file) => case.files.points = file,
            Put::Pair(table, points, view) => {
                (case.files.table, case.files.points) = (table, points);
                (case.files.view, case.files.nth) = (view, view);
            }
            Put::Pack(pack, point) => (case.packs[0], case.point) = (pack, point),
            Put::MainFile(place, file) => case.set.files[place] = file,
            Put::Set(files, view) => {
                (case.set.files, case.set.view, case.set.nth) = (files, view, view)
            }
            Put::Csv(file, row) => (case.csv.bytes, case.csv.row) = (file, row),
            Put::Book(book) => case.book.bytes = book,
            Put::Month(book, month, view) => {
                case.book.bytes = book;
                (case.book.table, case.book.points) = (month.table, month.points);
                case.book.view = view;
            }
        }
        case
    }
}

/// The cases of a part.
pub fn cases(part: Part) -> impl Iterator<Item = Case> {
    let fuzzed = (1..=part.fuzzed).map(fuzzed_case);
    let puts = puts().into_iter().step_by(part.one_in);
    let put = puts
        .zip(part.fuzzed + 1..)
        .map(|(put, number)| put.into_case(fuzzed_case(number)));
    fuzzed.chain(put)
}

/// The case of that number, in turn with its mutated pack and with the one at a
/// limit in front.
fn fuzzed_case(number: u64) -> Case {
    let mut case = case::make(SEED, number);
    case.packs.swap(0, (number % 2) as usize);
    case
}

fn puts() -> Vec<Put> {
    let mut rng = Rng::new(SEED);
    let mut puts = damaged_files(&mut rng);
    let damaged = make::damaged_packs().into_iter();
    puts.extend(damaged.map(|damaged| Put::Pack(damaged.pack, 1)));
    puts.extend(sample_views());
    puts.extend(kept_packs(&mut rng));
    puts.extend(damaged_main_files(&mut rng));
    let samples = make::samples::main_set();
    let views = 1..=samples.addresses.len() as u64;
    puts.extend(views.map(|view| Put::Set(samples.files.clone(), view)));
    puts.extend(csv_files(&mut rng));
    puts.extend(books(&mut rng));
    puts
}

/// Damaged books, and for each refusal of an event and for each letter a month that
/// has it, four times each, so that a part has them too.
fn books(rng: &mut Rng) -> Vec<Put> {
    let damaged = make::damaged_books(rng).into_iter();
    let mut puts: Vec<Put> = damaged.map(|damaged| Put::Book(damaged.book)).collect();
    let view = |address_key, letter| View {
        time: address_key,
        address_key,
        letter,
        ..View::default()
    };
    let present: Vec<View> = (1..=256).map(|key| view(key, b'I')).collect();
    let book = make::tidy_book(&present);
    let letters = [(7, b'I'), (8, b'D'), (9, b'B'), (9, b'C'), (300, b'D')];
    let mut views: Vec<View> = letters.map(|(key, letter)| view(key, letter)).to_vec();
    views.push(view(301, b'I'));
    let month = Pair::new(Vec::new(), views);
    for number in 1..=month.views.len() as u64 {
        for _ in 0..4 {
            puts.push(Put::Month(book.clone(), month.clone(), number));
        }
    }
    puts
}

/// Damaged CSV files, one in eight of them, and each row of an accepted one.
fn csv_files(rng: &mut Rng) -> Vec<Put> {
    let damaged = make::damaged_csv(rng).into_iter().step_by(8);
    let mut puts: Vec<Put> = damaged.map(|damaged| Put::Csv(damaged.csv, 1)).collect();
    let rows = make::csv_rows(rng, 40);
    let file = make::csv_file(&rows);
    puts.extend((1..=rows.len() as u64).map(|row| Put::Csv(file.clone(), row)));
    puts
}

/// A file for each refusal at each place where it can stand, three times.
fn damaged_files(rng: &mut Rng) -> Vec<Put> {
    let mut puts = Vec::new();
    for place in [Place::ALL; 3].concat() {
        for number in 1..=6 {
            let table = make::damaged_table(rng, number, place);
            let points = make::damaged_points(rng, number, place);
            puts.extend(table.map(|damaged| Put::Table(damaged.file)));
            puts.extend(points.map(|damaged| Put::Points(damaged.file)));
        }
    }
    puts
}

/// The same of a Mainfile set, once.
fn damaged_main_files(rng: &mut Rng) -> Vec<Put> {
    let mut puts = Vec::new();
    for place in Place::ALL {
        for number in 1..=5 {
            for file in 1..=7 {
                let damaged = make::damaged_main(rng, file, number, place);
                let put =
                    |damaged: make::Damaged| Put::MainFile(usize::from(file) - 1, damaged.file);
                puts.extend(damaged.map(put));
            }
        }
    }
    puts
}

/// Each view of the sample files.
fn sample_views() -> Vec<Put> {
    let samples = root().join("samples");
    let read = |name| fs::read(samples.join(name)).expect("a sample");
    let (table, points) = (read("changes1"), read("changes2"));
    let views = paper::views(&points).expect("views") as u64;
    (1..=views)
        .map(|view| Put::Pair(table.clone(), points.clone(), view))
        .collect()
}

/// Each kept pack with each number from 0 up to one behind its points, and as
/// often mutated.
fn kept_packs(rng: &mut Rng) -> Vec<Put> {
    let mut puts = Vec::new();
    for pack in packs_below(&root().join("samples")) {
        let points = paper::open(&pack).expect("a kept pack opens") as u64;
        for point in 0..=points + 1 {
            let mut mutated = pack.clone();
            mutate::pack(rng, &mut mutated);
            puts.push(Put::Pack(pack.clone(), point));
            puts.push(Put::Pack(mutated, point));
        }
    }
    puts
}

/// The packs in a folder and below it, in the order of their names.
fn packs_below(folder: &Path) -> Vec<Vec<u8>> {
    let entries = fs::read_dir(folder).expect("a folder of samples");
    let mut paths: Vec<_> = entries
        .map(|entry| entry.expect("an entry").path())
        .collect();
    paths.sort();
    let mut packs = Vec::new();
    for path in paths {
        if path.is_dir() {
            packs.extend(packs_below(&path));
        } else if path.extension().is_some_and(|end| end == "pack") {
            packs.push(fs::read(path).expect("a pack"));
        }
    }
    packs
}

/// The largest Changes files that are accepted, the pack of their commonest code, a
/// Mainfile set and a CSV file as long as these, and a book that is nearly full.
/// Every call gives a value.
pub fn largest() -> Case {
    let pair = make::exact_pair(&mut Rng::new(SEED), 20_000, 20_000).carried();
    let code = b"AB1 ".to_vec();
    let rows = rows_of(&pair);
    let mut pack = vec![0; 1 << 20];
    let length = paper::build(&pair.table, &pair.points, &code, &mut pack).expect("a pack");
    pack.truncate(length);
    let (book, view) = nearly_full(&pair);
    let mut case = Put::Month(book, pair.clone(), view).into_case(fuzzed_case(1));
    (case.book.code, case.book.place, case.book.nth) = (code.clone(), 5, 5);
    case = Put::Pair(pair.table, pair.points, 5).into_case(case);
    (case.files.code, case.packs[0], case.point, case.digit) = (code, pack, 5, 9);
    case = Put::Set(make::long_set(20_000), 5).into_case(case);
    case.set.code = b"AB10".to_vec();
    case = Put::Csv(rows, 5).into_case(case);
    case.room = length;
    (case.count, case.run_room) = (40, 40 * 499);
    case
}

/// A book of the first live views of a pair, in which one slot is free, and the
/// number of an inserted view that it has not.
fn nearly_full(pair: &Pair) -> (Vec<u8>, u64) {
    let live = pair.views.iter().filter(|view| view.is_live());
    let live: Vec<View> = live.take(255).cloned().collect();
    let inserted = |view: &View| view.letter == b'I' && !live.contains(view);
    let at = pair.views.iter().position(inserted);
    let number = at.expect("an inserted view") as u64 + 1;
    (make::tidy_book(&live), number)
}

/// The rows of all views of a pair.
fn rows_of(pair: &Pair) -> Vec<u8> {
    let mut rows = vec![0; 499 * pair.views.len()];
    let run = paper::csv::rows(&pair.table, &pair.points, 1, u64::MAX, &mut rows);
    let run = run.expect("files");
    assert_eq!(run.labels, pair.views.len() as u64);
    rows.truncate(run.bytes);
    rows
}
