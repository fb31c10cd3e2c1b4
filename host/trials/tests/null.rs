//! A null pointer with length 0: each call takes it for each of its slices, and
//! answers as it does for any other slice of no bytes.

use paper::make::{set_of_pair, tidy_book, worked_pack, worked_pair, MainSet, BUILT};
use trials::c::{printed, Folder};

/// Call and slice, then the answer's refusal, file and detail. Slices: t table,
/// p points, k pack, v CSV file, b book, c code, o out, 1 to 7 the files of a
/// Mainfile set.
const ANSWERS: &str = "\
ttw_table t: 1 1 0
ttw_points p: 1 2 0
ttw_unspace_table t: 0 0 0
ttw_unspace_points p: 0 0 0
ttw_views p: 1 2 0
ttw_letter p: 1 2 0
ttw_live p: 1 2 0
ttw_live c: 12 0 0
ttw_codes p: 1 2 0
ttw_codes o: 10 0 8
ttw_label t: 1 1 0
ttw_label p: 1 2 0
ttw_label o: 10 0 52
ttw_code_label t: 1 1 0
ttw_code_label p: 1 2 0
ttw_code_label c: 12 0 0
ttw_code_label o: 10 0 52
ttw_labels t: 1 1 0
ttw_labels p: 1 2 0
ttw_labels o: 10 0 52
ttw_code_labels t: 1 1 0
ttw_code_labels p: 1 2 0
ttw_code_labels c: 12 0 0
ttw_code_labels o: 10 0 52
ttw_list t: 1 1 0
ttw_list p: 1 2 0
ttw_list o: 10 0 61
ttw_code_list t: 1 1 0
ttw_code_list p: 1 2 0
ttw_code_list c: 12 0 0
ttw_code_list o: 10 0 61
ttw_build t: 1 1 0
ttw_build p: 1 2 0
ttw_build c: 12 0 0
ttw_build o: 10 0 171
ttw_pack k: 11 0 1
ttw_pack_label k: 11 0 1
ttw_pack_label o: 10 0 52
ttw_pack_suffix k: 11 0 1
ttw_sector k: 11 0 1
ttw_pack_labels k: 11 0 1
ttw_pack_labels o: 10 0 52
ttw_pack_list k: 11 0 1
ttw_pack_list o: 10 0 60
ttw_csv_row t: 1 1 0
ttw_csv_row p: 1 2 0
ttw_csv_row o: 10 0 68
ttw_csv_rows t: 1 1 0
ttw_csv_rows p: 1 2 0
ttw_csv_rows o: 10 0 68
ttw_csv v: 0 0 0
ttw_csv_label v: 7 0 0
ttw_csv_label o: 10 0 52
ttw_csv_labels v: 7 0 0
ttw_csv_labels o: 10 0 52
ttw_csv_list v: 7 0 0
ttw_csv_list o: 10 0 58
ttw_book b: 28 0 0
ttw_book_event b: 28 0 0
ttw_book_event p: 1 2 0
ttw_book_tidy b: 28 0 0
ttw_book_live b: 28 0 0
ttw_book_live c: 12 0 0
ttw_book_label b: 28 0 0
ttw_book_label t: 1 1 0
ttw_book_label o: 10 0 52
ttw_book_code_label b: 28 0 0
ttw_book_code_label t: 1 1 0
ttw_book_code_label c: 12 0 0
ttw_book_code_label o: 10 0 52
ttw_book_labels b: 28 0 0
ttw_book_labels t: 1 1 0
ttw_book_labels o: 10 0 52
ttw_book_code_labels b: 28 0 0
ttw_book_code_labels t: 1 1 0
ttw_book_code_labels c: 12 0 0
ttw_book_code_labels o: 10 0 52
ttw_book_list b: 28 0 0
ttw_book_list t: 1 1 0
ttw_book_list o: 10 0 60
ttw_book_code_list b: 28 0 0
ttw_book_code_list t: 1 1 0
ttw_book_code_list c: 12 0 0
ttw_book_code_list o: 10 0 60
ttw_book_build b: 28 0 0
ttw_book_build t: 1 1 0
ttw_book_build c: 12 0 0
ttw_book_build o: 10 0 171
";

/// The calls on a Mainfile set: which of its files they take, by their numbers,
/// whether they take a code, and the bytes that they need where they write.
const MAIN: [(&str, std::ops::RangeInclusive<u8>, bool, Option<u64>); 12] = [
    ("ttw_main", 1..=7, false, None),
    ("ttw_main_live", 7..=7, true, None),
    ("ttw_main_codes", 7..=7, false, Some(8)),
    ("ttw_main_label", 1..=7, false, Some(52)),
    ("ttw_main_code_label", 1..=7, true, Some(52)),
    ("ttw_main_labels", 1..=7, false, Some(52)),
    ("ttw_main_code_labels", 1..=7, true, Some(52)),
    ("ttw_main_list", 1..=7, false, Some(59)),
    ("ttw_main_code_list", 1..=7, true, Some(59)),
    ("ttw_main_build", 1..=7, true, Some(171)),
    ("ttw_main_csv_row", 1..=7, false, Some(68)),
    ("ttw_main_csv_rows", 1..=7, false, Some(68)),
];

/// All answers: those of these calls behind the others.
fn answers() -> String {
    let mut answers = ANSWERS.to_string();
    for (call, files, code, room) in MAIN {
        files.for_each(|file| answers += &format!("{call} {file}: 1 {file} 0\n"));
        if code {
            answers += &format!("{call} c: 12 0 0\n");
        }
        if let Some(room) = room {
            answers += &format!("{call} o: 10 0 {room}\n");
        }
    }
    answers
}

/// The set that says what the worked pair's first view says.
fn worked_set() -> MainSet {
    let made = set_of_pair(&worked_pair());
    let first = made.addresses.into_iter().take(1).collect();
    MainSet::new(made.rows, Vec::new(), first)
}

/// The worked pair's first view as a CSV file.
fn worked_row() -> Vec<u8> {
    let pair = worked_pair();
    let mut row = vec![0; 499];
    let length = paper::csv::row(&pair.table, &pair.points, 1, &mut row).expect("a row");
    row.truncate(length);
    row
}

#[test]
fn every_call_takes_a_null_pointer_with_length_0() {
    let folder = Folder::new("null");
    let pair = worked_pair();
    let mut program = folder.program("null");
    program
        .arg(folder.file("changes1", &pair.table))
        .arg(folder.file("changes2", &pair.points))
        .arg(folder.file("pack", &worked_pack(BUILT)))
        .arg(folder.file("csv", &worked_row()))
        .arg(folder.file("book", &tidy_book(&pair.views[..1])));
    for (number, file) in worked_set().files.iter().enumerate() {
        program.arg(folder.file(&format!("main{number}"), file));
    }
    assert_eq!(printed(&mut program), answers());
}

/// So that a call that is added is tried too.
#[test]
fn the_calls_tried_are_those_of_the_header() {
    let header = include_str!("../../../include/ttwibonal.h");
    let declared = header
        .lines()
        .filter_map(|line| line.strip_prefix("uint64_t ")?.split('(').next());
    let mut declared: Vec<&str> = declared.collect();
    let answers = answers();
    let asked = answers.lines().filter_map(|line| line.split(' ').next());
    let mut asked: Vec<&str> = asked.collect();
    declared.sort_unstable();
    asked.sort_unstable();
    asked.dedup();
    assert_eq!(asked, declared);
}
