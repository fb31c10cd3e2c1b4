//! The calls of the header: what each is lent of a case, what it has to answer,
//! and the stack that the header allows it. A call that is new in the header
//! gets an entry here and a line in `driver.c`.

use fuzz::case::Case;
use paper::book;
use paper::csv;
use paper::mainfile::{self, Set};
use paper::{packed, packed_run, Refusal, Run};

/// A call of the header.
pub struct Call {
    pub name: &'static str,
    /// It takes less than so many bytes of stack.
    pub stack: u64,
    pub lend: fn(&Case) -> Lent,
    pub plain: Plain,
}

/// The second program's answer as one number: from `r`, the slices to read, and
/// `n`, the numbers. It writes into `w`, the slices to write.
type Plain = fn(&[Vec<u8>], &[u64], &mut [Vec<u8>]) -> u64;

/// What a call is lent: slices to read, numbers, slices to write.
#[derive(Clone, Debug)]
pub struct Lent {
    pub reads: Vec<Vec<u8>>,
    pub numbers: Vec<u64>,
    pub writes: Vec<Vec<u8>>,
}

/// What the header says of the stack: a call on files takes less than this,
const FILES: u64 = 2_048;
/// labels and listings from files less than this, and so rows from files and the
/// calls on a CSV file,
const LABELS: u64 = 4_096;
/// opening a pack, labels, listings, a suffix or a sector from a pack less than
/// this,
const PACKS: u64 = 80 << 10;
/// building a pack or listing codes less than this.
const BUILDING: u64 = 192 << 10;
/// Labels, listings and rows from a Mainfile set take less than this,
const LABELS_FROM_A_SET: u64 = 6_144;
/// building a pack from a set less than this, any other call on a set what that
/// call on a pair of files does.
const BUILDING_FROM_A_SET: u64 = 1 << 20;
/// A call on a book takes less than this,
const BOOKS: u64 = 8_192;
/// tidying one, which has a copy of it, less than this; building a pack from one
/// what building from files does.
const TIDYING: u64 = 96 << 10;

pub const CALLS: [Call; 50] = [
    Call {
        name: "ttw_table",
        stack: FILES,
        lend: |case| lent(&[&case.files.table], &[], &[]),
        plain: |r, _, _| count(paper::check_table(&r[0])),
    },
    Call {
        name: "ttw_points",
        stack: FILES,
        lend: |case| lent(&[&case.files.points], &[], &[]),
        plain: |r, _, _| count(paper::check_points(&r[0])),
    },
    Call {
        name: "ttw_unspace_table",
        stack: FILES,
        lend: |case| lent_to_rewrite(&case.files.table),
        plain: |_, _, w| paper::unspace_table(&mut w[0]),
    },
    Call {
        name: "ttw_unspace_points",
        stack: FILES,
        lend: |case| lent_to_rewrite(&case.files.points),
        plain: |_, _, w| paper::unspace_points(&mut w[0]),
    },
    Call {
        name: "ttw_views",
        stack: FILES,
        lend: |case| lent(&[&case.files.points], &[], &[]),
        plain: |r, _, _| count(paper::views(&r[0])),
    },
    Call {
        name: "ttw_letter",
        stack: FILES,
        lend: |case| lent(&[&case.files.points], &[case.files.view], &[]),
        plain: |r, n, _| packed(paper::letter(&r[0], n[0]).map(u64::from)),
    },
    Call {
        name: "ttw_live",
        stack: FILES,
        lend: |case| lent(&[&case.files.points, &case.files.code], &[], &[]),
        plain: |r, _, _| count(paper::live(&r[0], &r[1])),
    },
    Call {
        name: "ttw_codes",
        stack: BUILDING,
        lend: |case| lent(&[&case.files.points], &[], &[case.room]),
        plain: |r, _, w| count(paper::codes(&r[0], &mut w[0])),
    },
    Call {
        name: "ttw_label",
        stack: LABELS,
        lend: |case| lent(&pair(case), &[case.files.view], &[case.room]),
        plain: |r, n, w| count(paper::label(&r[0], &r[1], n[0], &mut w[0])),
    },
    Call {
        name: "ttw_code_label",
        stack: LABELS,
        lend: |case| lent(&files(case), &[case.files.nth], &[case.room]),
        plain: |r, n, w| count(paper::code_label(&r[0], &r[1], &r[2], n[0], &mut w[0])),
    },
    Call {
        name: "ttw_labels",
        stack: LABELS,
        lend: |case| lent_to_run(&pair(case), case.files.view, case),
        plain: |r, n, w| {
            let run = paper::labels(&r[0], &r[1], n[0], n[1], &mut w[0]);
            told(run, &mut w[1])
        },
    },
    Call {
        name: "ttw_code_labels",
        stack: LABELS,
        lend: |case| lent_to_run(&files(case), case.files.nth, case),
        plain: |r, n, w| {
            let run = paper::code_labels(&r[0], &r[1], &r[2], n[0], n[1], &mut w[0]);
            told(run, &mut w[1])
        },
    },
    Call {
        name: "ttw_list",
        stack: LABELS,
        lend: |case| lent_to_run(&pair(case), case.files.view, case),
        plain: |r, n, w| {
            let list = paper::list(&r[0], &r[1], n[0], n[1], &mut w[0]);
            told(list, &mut w[1])
        },
    },
    Call {
        name: "ttw_code_list",
        stack: LABELS,
        lend: |case| lent_to_run(&files(case), case.files.nth, case),
        plain: |r, n, w| {
            let list = paper::code_list(&r[0], &r[1], &r[2], n[0], n[1], &mut w[0]);
            told(list, &mut w[1])
        },
    },
    Call {
        name: "ttw_build",
        stack: BUILDING,
        lend: |case| lent(&files(case), &[], &[case.room]),
        plain: |r, _, w| count(paper::build(&r[0], &r[1], &r[2], &mut w[0])),
    },
    Call {
        name: "ttw_pack",
        stack: PACKS,
        lend: |case| lent(&[&case.packs[0]], &[], &[]),
        plain: |r, _, _| count(paper::open(&r[0])),
    },
    Call {
        name: "ttw_pack_label",
        stack: PACKS,
        lend: |case| lent(&[&case.packs[0]], &[case.point], &[case.room]),
        plain: |r, n, w| count(paper::pack_label(&r[0], n[0], &mut w[0])),
    },
    Call {
        name: "ttw_pack_suffix",
        stack: PACKS,
        lend: |case| lent(&[&case.packs[0]], &[case.point], &[]),
        plain: |r, n, _| packed(paper::pack_suffix(&r[0], n[0])),
    },
    Call {
        name: "ttw_sector",
        stack: PACKS,
        lend: |case| lent(&[&case.packs[0]], &[case.digit], &[]),
        plain: |r, n, _| packed(paper::sector(&r[0], n[0])),
    },
    Call {
        name: "ttw_pack_labels",
        stack: PACKS,
        lend: |case| lent_to_run(&[&case.packs[0]], case.point, case),
        plain: |r, n, w| {
            let run = paper::pack_labels(&r[0], n[0], n[1], &mut w[0]);
            told(run, &mut w[1])
        },
    },
    Call {
        name: "ttw_pack_list",
        stack: PACKS,
        lend: |case| lent_to_run(&[&case.packs[0]], case.point, case),
        plain: |r, n, w| {
            let list = paper::pack_list(&r[0], n[0], n[1], &mut w[0]);
            told(list, &mut w[1])
        },
    },
    Call {
        name: "ttw_main",
        stack: FILES,
        lend: |case| lent(&set(case), &[], &[]),
        plain: |r, _, _| count(mainfile::views(set_of(r))),
    },
    Call {
        name: "ttw_main_live",
        stack: FILES,
        lend: |case| lent(&[&case.set.files[6], &case.set.code], &[], &[]),
        plain: |r, _, _| count(mainfile::live(&r[0], &r[1])),
    },
    Call {
        name: "ttw_main_codes",
        stack: BUILDING,
        lend: |case| lent(&[&case.set.files[6]], &[], &[case.room]),
        plain: |r, _, w| count(mainfile::codes(&r[0], &mut w[0])),
    },
    Call {
        name: "ttw_main_label",
        stack: LABELS_FROM_A_SET,
        lend: |case| lent(&set(case), &[case.set.view], &[case.room]),
        plain: |r, n, w| count(mainfile::label(set_of(r), n[0], &mut w[0])),
    },
    Call {
        name: "ttw_main_code_label",
        stack: LABELS_FROM_A_SET,
        lend: |case| lent(&set_and_code(case), &[case.set.nth], &[case.room]),
        plain: |r, n, w| count(mainfile::code_label(set_of(r), &r[7], n[0], &mut w[0])),
    },
    Call {
        name: "ttw_main_labels",
        stack: LABELS_FROM_A_SET,
        lend: |case| lent_to_run(&set(case), case.set.view, case),
        plain: |r, n, w| {
            let run = mainfile::labels(set_of(r), n[0], n[1], &mut w[0]);
            told(run, &mut w[1])
        },
    },
    Call {
        name: "ttw_main_code_labels",
        stack: LABELS_FROM_A_SET,
        lend: |case| lent_to_run(&set_and_code(case), case.set.nth, case),
        plain: |r, n, w| {
            let run = mainfile::code_labels(set_of(r), &r[7], n[0], n[1], &mut w[0]);
            told(run, &mut w[1])
        },
    },
    Call {
        name: "ttw_main_list",
        stack: LABELS_FROM_A_SET,
        lend: |case| lent_to_run(&set(case), case.set.view, case),
        plain: |r, n, w| {
            let list = mainfile::list(set_of(r), n[0], n[1], &mut w[0]);
            told(list, &mut w[1])
        },
    },
    Call {
        name: "ttw_main_code_list",
        stack: LABELS_FROM_A_SET,
        lend: |case| lent_to_run(&set_and_code(case), case.set.nth, case),
        plain: |r, n, w| {
            let list = mainfile::code_list(set_of(r), &r[7], n[0], n[1], &mut w[0]);
            told(list, &mut w[1])
        },
    },
    Call {
        name: "ttw_main_build",
        stack: BUILDING_FROM_A_SET,
        lend: |case| lent(&set_and_code(case), &[], &[case.room]),
        plain: |r, _, w| count(mainfile::build(set_of(r), &r[7], &mut w[0])),
    },
    Call {
        name: "ttw_csv_row",
        stack: LABELS,
        lend: |case| lent(&pair(case), &[case.files.view], &[case.room]),
        plain: |r, n, w| count(csv::row(&r[0], &r[1], n[0], &mut w[0])),
    },
    Call {
        name: "ttw_csv_rows",
        stack: LABELS,
        lend: |case| lent_to_run(&pair(case), case.files.view, case),
        plain: |r, n, w| {
            let run = csv::rows(&r[0], &r[1], n[0], n[1], &mut w[0]);
            told(run, &mut w[1])
        },
    },
    Call {
        name: "ttw_main_csv_row",
        stack: LABELS_FROM_A_SET,
        lend: |case| lent(&set(case), &[case.set.view], &[case.room]),
        plain: |r, n, w| count(csv::main_row(set_of(r), n[0], &mut w[0])),
    },
    Call {
        name: "ttw_main_csv_rows",
        stack: LABELS_FROM_A_SET,
        lend: |case| lent_to_run(&set(case), case.set.view, case),
        plain: |r, n, w| {
            let run = csv::main_rows(set_of(r), n[0], n[1], &mut w[0]);
            told(run, &mut w[1])
        },
    },
    Call {
        name: "ttw_csv",
        stack: LABELS,
        lend: |case| lent(&[&case.csv.bytes], &[], &[]),
        plain: |r, _, _| count(csv::check(&r[0])),
    },
    Call {
        name: "ttw_csv_label",
        stack: LABELS,
        lend: |case| lent(&[&case.csv.bytes], &[case.csv.row], &[case.room]),
        plain: |r, n, w| count(csv::label(&r[0], n[0], &mut w[0])),
    },
    Call {
        name: "ttw_csv_labels",
        stack: LABELS,
        lend: |case| lent_to_run(&[&case.csv.bytes], case.csv.row, case),
        plain: |r, n, w| {
            let run = csv::labels(&r[0], n[0], n[1], &mut w[0]);
            told(run, &mut w[1])
        },
    },
    Call {
        name: "ttw_csv_list",
        stack: LABELS,
        lend: |case| lent_to_run(&[&case.csv.bytes], case.csv.row, case),
        plain: |r, n, w| {
            let list = csv::list(&r[0], n[0], n[1], &mut w[0]);
            told(list, &mut w[1])
        },
    },
    Call {
        name: "ttw_book",
        stack: BOOKS,
        lend: |case| lent(&[&case.book.bytes], &[], &[]),
        plain: |r, _, _| packed(book::count(&r[0])),
    },
    Call {
        name: "ttw_book_event",
        stack: BOOKS,
        lend: |case| Lent {
            writes: vec![case.book.bytes.clone()],
            ..lent(&[&case.book.points], &[case.book.view], &[])
        },
        plain: |r, n, w| packed(book::event(&mut w[0], &r[0], n[0])),
    },
    Call {
        name: "ttw_book_tidy",
        stack: TIDYING,
        lend: |case| lent_to_rewrite(&case.book.bytes),
        plain: |_, _, w| packed(book::tidy(&mut w[0])),
    },
    Call {
        name: "ttw_book_live",
        stack: BOOKS,
        lend: |case| lent(&[&case.book.bytes, &case.book.code], &[], &[]),
        plain: |r, _, _| packed(book::live(&r[0], &r[1])),
    },
    Call {
        name: "ttw_book_label",
        stack: BOOKS,
        lend: |case| lent(&book_and_table(case), &[case.book.place], &[case.room]),
        plain: |r, n, w| count(book::label(&r[0], &r[1], n[0], &mut w[0])),
    },
    Call {
        name: "ttw_book_code_label",
        stack: BOOKS,
        lend: |case| lent(&book_and_code(case), &[case.book.nth], &[case.room]),
        plain: |r, n, w| count(book::code_label(&r[0], &r[1], &r[2], n[0], &mut w[0])),
    },
    Call {
        name: "ttw_book_labels",
        stack: BOOKS,
        lend: |case| lent_to_run(&book_and_table(case), case.book.place, case),
        plain: |r, n, w| {
            let run = book::labels(&r[0], &r[1], n[0], n[1], &mut w[0]);
            told(run, &mut w[1])
        },
    },
    Call {
        name: "ttw_book_code_labels",
        stack: BOOKS,
        lend: |case| lent_to_run(&book_and_code(case), case.book.nth, case),
        plain: |r, n, w| {
            let run = book::code_labels(&r[0], &r[1], &r[2], n[0], n[1], &mut w[0]);
            told(run, &mut w[1])
        },
    },
    Call {
        name: "ttw_book_list",
        stack: BOOKS,
        lend: |case| lent_to_run(&book_and_table(case), case.book.place, case),
        plain: |r, n, w| {
            let list = book::list(&r[0], &r[1], n[0], n[1], &mut w[0]);
            told(list, &mut w[1])
        },
    },
    Call {
        name: "ttw_book_code_list",
        stack: BOOKS,
        lend: |case| lent_to_run(&book_and_code(case), case.book.nth, case),
        plain: |r, n, w| {
            let list = book::code_list(&r[0], &r[1], &r[2], n[0], n[1], &mut w[0]);
            told(list, &mut w[1])
        },
    },
    Call {
        name: "ttw_book_build",
        stack: BUILDING,
        lend: |case| lent(&book_and_code(case), &[], &[case.room]),
        plain: |r, _, w| count(book::build(&r[0], &r[1], &r[2], &mut w[0])),
    },
];

/// The slices of a call on a pair of files.
fn pair(case: &Case) -> [&Vec<u8>; 2] {
    [&case.files.table, &case.files.points]
}

/// The slices of a call on a pair of files and a code.
fn files(case: &Case) -> [&Vec<u8>; 3] {
    [&case.files.table, &case.files.points, &case.files.code]
}

/// The slices of a call on a Mainfile set.
fn set(case: &Case) -> [&Vec<u8>; 7] {
    case.set.files.each_ref()
}

/// The slices of a call on a Mainfile set and a code.
fn set_and_code(case: &Case) -> [&Vec<u8>; 8] {
    std::array::from_fn(|place| case.set.files.get(place).unwrap_or(&case.set.code))
}

/// The slices of a call on a book and a table file.
fn book_and_table(case: &Case) -> [&Vec<u8>; 2] {
    [&case.book.bytes, &case.book.table]
}

/// The slices of a call on a book, a table file and a code.
fn book_and_code(case: &Case) -> [&Vec<u8>; 3] {
    [&case.book.bytes, &case.book.table, &case.book.code]
}

/// The first slices to read, as the second program takes a set.
fn set_of(reads: &[Vec<u8>]) -> Set<'_> {
    std::array::from_fn(|place| reads[place].as_slice())
}

/// Slices, numbers, and so many telling bytes for each slice to write.
fn lent(reads: &[&Vec<u8>], numbers: &[u64], rooms: &[usize]) -> Lent {
    Lent {
        reads: reads.iter().map(|bytes| bytes.to_vec()).collect(),
        numbers: numbers.to_vec(),
        writes: rooms.iter().map(|room| telling(*room)).collect(),
    }
}

/// A file to rewrite.
fn lent_to_rewrite(file: &[u8]) -> Lent {
    Lent {
        writes: vec![file.to_vec()],
        ..lent(&[], &[], &[])
    }
}

/// What a run or a listing is lent beside its slices to read: where to start, how
/// many, room for them and for the number of their bytes.
fn lent_to_run(reads: &[&Vec<u8>], first: u64, case: &Case) -> Lent {
    let numbers = [first, case.count];
    lent(reads, &numbers, &[case.run_room, 8])
}

/// So many bytes that tell where they stand.
pub fn telling(room: usize) -> Vec<u8> {
    (0..room).map(|at| (at * 7 + 1) as u8).collect()
}

fn count(answer: Result<usize, Refusal>) -> u64 {
    packed(answer.map(|value| value as u64))
}

/// The answer of a run or a listing, whose bytes become a number in that slice.
fn told(run: Result<Run, Refusal>, slice: &mut [u8]) -> u64 {
    let mut bytes = u64::from_le_bytes((&*slice).try_into().expect("8 bytes"));
    let answer = packed_run(run, &mut bytes);
    slice.copy_from_slice(&bytes.to_le_bytes());
    answer
}
