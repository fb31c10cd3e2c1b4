//! `ttw book`: a book kept through months, what it prints and cuts, which events
//! are told as refused, and that its file is replaced whole or not at all, also
//! where many runs change it at once.

mod support;

use paper::book;
use paper::make::{history, point_file, samples, tidy_book, Pair, Rng, Shape, View};
use std::fs;
use std::os::unix::fs::symlink;
use std::process::{Command, Stdio};
use support::faults::Faults;
use support::{Folder, Run, TTW};

/// A folder with both months of the samples.
fn desk() -> Folder {
    let folder = Folder::new();
    for (name, month) in ["first", "second"].iter().zip(samples::months()) {
        put_month(&folder, name, &month);
    }
    folder
}

/// The files of a month in a folder of that name.
fn put_month(folder: &Folder, name: &str, month: &Pair) {
    fs::create_dir(folder.0.join(name)).expect("a new folder");
    folder.put(&format!("{name}/changes1"), &month.table);
    folder.put(&format!("{name}/changes2"), &month.points);
}

fn book_line(folder: &Folder, line: &str) -> Run {
    folder.shell(&format!("\"$TTW\" book {line}"))
}

/// Adds the month in a folder of that name.
fn add(folder: &Folder, month: &str) -> Run {
    book_line(
        folder,
        &format!("add book {month}/changes1 {month}/changes2"),
    )
}

const FIRST_DONE: &str = "events done: 5, refused: 0, present: 5";
const APART: &str = "a change whose B and C do not stand together (refusal 19)";
const SECOND_DONE: &str = "events done: 4, refused: 2, present: 6";

/// A desk with a book of both months.
fn kept() -> Folder {
    let folder = desk();
    book_line(&folder, "new book").only_tells(0, "book: an empty book");
    add(&folder, "first").only_tells(0, FIRST_DONE);
    let told = format!("view 4: {APART}\nview 6: {APART}\n{SECOND_DONE}");
    add(&folder, "second").only_tells(1, &told);
    folder
}

#[test]
fn two_months_make_the_book_of_the_samples() {
    let folder = kept();
    assert!(folder.read("book") == samples::book());
    assert_eq!(folder.names("."), ["book", "first", "second"]);
}

#[test]
fn a_book_is_listed_by_places() {
    let folder = kept();
    let run = book_line(&folder, "list book second/changes1");
    assert_eq!(run.told, "labels printed: 6, refused: 0\n");
    assert!(run.out.starts_with("place 1\n3 QUARRY LANE\n"));
    assert!(run.out.contains("place 2\nBAY STORAGE\n"));
    assert!(run
        .out
        .ends_with("place 6\n9 QUARRY LANE\nHARTWELL BAY\nAB1 9ZZ\n"));
    let run = book_line(&folder, "list book second/changes1 --code EC1N");
    assert_eq!(run.out, "place 5\n7 QUARRY LANE\nHARTWELL BAY\nEC1N 2AA\n");
    let run = book_line(&folder, "list book second/changes1 --out list");
    run.only_tells(0, "labels printed: 6, refused: 0");
    assert!(folder.read("list").starts_with(b"place 1\n"));
}

#[test]
fn labels_come_one_behind_the_other() {
    let folder = kept();
    let lane = |number| format!("{number} QUARRY LANE\nHARTWELL BAY\nAB1 9ZZ\n");
    let labels =
        |options: &str| book_line(&folder, &format!("labels book second/changes1 {options}"));
    labels("--place 1").prints(&lane(3));
    labels("--place 6 --count 1").prints(&lane(9));
    labels("--code AB1 --nth 4").prints(&lane(12));
    labels("--code AB1 --nth 4 --count 2").prints(&format!("{}{}", lane(12), lane(9)));
    let all = labels("");
    assert_eq!(all.out.matches("HARTWELL BAY\n").count(), 6);
    assert!(all.out.starts_with(&lane(3)) && all.out.ends_with(&lane(9)));
    assert_eq!(labels("--code AB1").out.matches("AB1 9ZZ\n").count(), 5);
    labels("--code DN55").prints("");
    let none = "there is none of that number (refusal 7)";
    labels("--place 7").only_tells(1, &format!("place 7: {none}"));
    labels("--code AB1 --nth 6").only_tells(1, &format!("AB1 number 6: {none}"));
    let run = labels("--place 5 --count 3");
    assert_eq!(run.told, format!("place 7: {none}\n"));
}

#[test]
fn packs_are_those_that_the_second_program_builds() {
    let folder = kept();
    let run = book_line(&folder, "pack book second/changes1 --all --out packs");
    run.only_tells(0, "packs written: 2, codes refused: 0");
    assert_eq!(folder.names("packs"), ["AB1.pack", "EC1N.pack"]);
    for code in ["AB1", "EC1N"] {
        let mut pack = vec![0; 1 << 12];
        let padded = format!("{code:4}");
        let table = folder.read("second/changes1");
        let length = book::build(&samples::book(), &table, padded.as_bytes(), &mut pack);
        let built = folder.read(&format!("packs/{code}.pack"));
        assert!(built == pack[..length.expect("a pack")]);
    }
    // A table file without the rows: the code is refused, with the place to mend.
    folder.put("no-rows", &paper::make::table_file(&[]));
    let run = book_line(&folder, "pack book no-rows --code EC1N --out packs");
    let why =
        "the locality's key is zero or has no row in force in the table file (refusal 9, field 1)";
    run.only_tells(
        1,
        &format!("code EC1N: place 5: {why}\npacks written: 0, codes refused: 1"),
    );
}

#[test]
fn tidying_moves_what_is_present_into_the_first_slots() {
    let folder = kept();
    let before = book::present(&folder.read("book"));
    book_line(&folder, "tidy book").only_tells(0, "present: 6, in the first slots");
    let tidied = folder.read("book");
    assert_eq!(book::present(&tidied), before);
    assert!(tidied != samples::book());
    let places: Vec<u8> = tidied.chunks(338).take(7).map(|slot| slot[1]).collect();
    assert_eq!(places, [1, 2, 3, 4, 5, 6, 0]);
}

#[test]
fn refused_events_are_told_and_with_stop_the_book_stays() {
    let folder = kept();
    let before = folder.read("book");
    let again = add(&folder, "first");
    let present = "inserted, but the delivery point is present already (refusal 17)";
    let told: String = [1, 3, 4, 5]
        .map(|view| format!("view {view}: {present}\n"))
        .concat();
    let done = "events done: 1, refused: 4, present: 7\n";
    assert_eq!((again.status, again.told), (Some(1), told + done));
    let after = folder.read("book");
    assert!(after != before);
    let stop = book_line(&folder, "add book first/changes1 first/changes2 --stop");
    stop.only_tells(1, &format!("view 1: {present}\nbook: as it was"));
    assert!(folder.read("book") == after);
    let deleted = [1, 2].map(|time| View {
        letter: b'D',
        time,
        ..View::default()
    });
    folder.put("first/changes2", &point_file(&deleted));
    let stop = book_line(&folder, "add book first/changes1 first/changes2 --stop");
    let absent = "deleted or changed, but the delivery point is not present (refusal 18)";
    stop.only_tells(1, &format!("view 2: {absent}\nbook: as it was"));
    assert!(folder.read("book") == after);
}

#[test]
fn a_full_book_refuses_more() {
    let folder = desk();
    let view = |address_key| View {
        time: address_key,
        address_key,
        ..View::default()
    };
    let all: Vec<View> = (1..=257).map(view).collect();
    put_month(&folder, "long", &Pair::new(Vec::new(), all.clone()));
    book_line(&folder, "new book").only_tells(0, "book: an empty book");
    let full = "inserted, but all 256 slots of the book are in use (refusal 20)";
    let done = "events done: 256, refused: 1, present: 256";
    add(&folder, "long").only_tells(1, &format!("view 257: {full}\n{done}"));
    assert!(folder.read("book") == tidy_book(&all[..256]));
}

/// The events of a month in turn, as the second program does them.
fn keep(book: &mut [u8], month: &Pair) {
    for view in 1..=month.views.len() as u64 {
        // One that is refused leaves the book as it was.
        let _ = book::event(book, &month.points, view);
    }
}

/// A C is no event of its own, whether it is named or not, so that the second
/// program may name every view.
#[test]
fn histories_leave_the_book_that_the_second_program_keeps() {
    let folder = Folder::new();
    let shape = Shape {
        points: 320,
        months: 6,
        events: 90,
    };
    let mut expected = vec![0; 86_530];
    book_line(&folder, "new book").only_tells(0, "book: an empty book");
    for (number, month) in history(&mut Rng::new(4), shape).months.iter().enumerate() {
        let name = format!("month{number}");
        put_month(&folder, &name, month);
        let run = add(&folder, &name);
        keep(&mut expected, month);
        assert!(folder.read("book") == expected, "{}", run.told);
        let present = book::count(&expected).expect("a book");
        assert!(run.told.ends_with(&format!(", present: {present}\n")));
    }
}

#[test]
fn many_runs_at_once_lose_no_event() {
    let folder = Folder::new();
    book_line(&folder, "new book").only_tells(0, "book: an empty book");
    let keys = 1..=12;
    let runs: Vec<_> = keys
        .map(|address_key| {
            let name = format!("month{address_key}");
            let view = View {
                address_key,
                ..View::default()
            };
            put_month(&folder, &name, &Pair::new(Vec::new(), vec![view]));
            let files = ["changes1", "changes2"].map(|file| format!("{name}/{file}"));
            let mut run = Command::new(TTW);
            run.args(["book", "add", "book"]).args(files);
            run.current_dir(&folder.0).stderr(Stdio::null());
            run.spawn().expect("it starts")
        })
        .collect();
    for mut run in runs {
        assert!(run.wait().expect("it ends").success());
    }
    assert_eq!(book::count(&folder.read("book")), Ok(12));
}

#[test]
fn a_run_waits_while_another_has_the_book() {
    if !support::is_installed("flock") {
        eprintln!("Left out: a run that waits, which needs flock.");
        return;
    }
    let folder = desk();
    book_line(&folder, "new book").only_tells(0, "book: an empty book");
    let line = "flock book sleep 1 & sleep 0.3; \
        \"$TTW\" book add book first/changes1 first/changes2; status=$?; wait; exit $status";
    let told = format!("book: waiting for another run to be done with it\n{FIRST_DONE}");
    folder.shell(line).only_tells(0, &told);
}

#[test]
fn a_write_that_fails_leaves_the_older_book() {
    let folder = desk();
    book_line(&folder, "new book").only_tells(0, "book: an empty book");
    let before = folder.read("book");
    let faults = Faults::new(&folder);
    for (call, file) in [
        ("open", ".part"),
        ("write", ".part"),
        ("fsync", ".part"),
        ("rename", "book"),
    ] {
        let fail = format!("{call} 1 1 28");
        let settings = [("FAULTS_FAIL", fail.as_str()), ("FAULTS_FILE", file)];
        let arguments = ["book", "add", "book", "first/changes1", "first/changes2"];
        let seen = faults.ttw(&settings, &arguments);
        let told = "ttw: cannot write book: No space left on device (os error 28)";
        seen.run.only_tells(2, told);
        assert!(folder.read("book") == before, "{call}");
    }
    let left = folder.names(".");
    assert!(!left.iter().any(|name| name.ends_with(".part")), "{left:?}");
    let settings = [("FAULTS_FAIL", "write 1 1 28"), ("FAULTS_FILE", ".part")];
    let seen = faults.ttw(&settings, &["book", "new", "other"]);
    assert_eq!(seen.run.status, Some(2));
    assert!(!folder.0.join("other").exists());
}

#[test]
fn what_is_no_book_is_refused_by_each_and_stays() {
    let folder = kept();
    let mut damaged = samples::book();
    damaged[86_529] = 200;
    let why = "not a book, or it is damaged (refusal 28)";
    for bytes in [
        &damaged[..],
        b"",
        &damaged[1..],
        &[damaged.clone(), vec![0]].concat(),
    ] {
        folder.put("book", bytes);
        for line in [
            "add book first/changes1 first/changes2",
            "list book first/changes1",
            "labels book first/changes1",
            "labels book first/changes1 --place 1",
            "pack book first/changes1 --all --out packs",
            "tidy book",
        ] {
            book_line(&folder, line).only_tells(1, &format!("book: {why}"));
            assert!(folder.read("book") == bytes, "{line}");
        }
    }
    folder.put("table", b"no table");
    let length = "the length is not that of 2 to 20,000 whole records (refusal 1)";
    let both = format!("book: {why}\ntable: {length}");
    book_line(&folder, "list book table").only_tells(1, &both);
}

#[test]
fn refused_files_leave_the_book() {
    let folder = kept();
    let before = folder.read("book");
    let run = book_line(&folder, "add book first/changes2 first/changes1");
    assert_eq!(run.status, Some(1));
    assert!(run.told.contains("the files look swapped"), "{}", run.told);
    assert!(folder.read("book") == before);
}

#[test]
fn nothing_but_a_plain_file_that_is_there_is_a_book() {
    let folder = kept();
    let before = folder.read("book");
    symlink("book", folder.0.join("link")).expect("a link");
    let run = book_line(&folder, "add link first/changes1 first/changes2");
    run.only_tells(2, "ttw: cannot read link: it is not a plain file");
    book_line(&folder, "tidy first")
        .only_tells(2, "ttw: cannot read first: it is not a plain file");
    folder.shell("mkfifo pipe").prints("");
    let told = "ttw: cannot read pipe: it is not a plain file";
    book_line(&folder, "tidy pipe").only_tells(2, told);
    let missing = "No such file or directory (os error 2)";
    book_line(&folder, "tidy none").only_tells(2, &format!("ttw: cannot read none: {missing}"));
    let there = "File exists (os error 17)";
    for name in ["book", "link", "first"] {
        let told = format!("ttw: cannot make {name}: {there}");
        book_line(&folder, &format!("new {name}")).only_tells(2, &told);
    }
    assert!(folder.read("book") == before);
}

/// Wrong usage, and what is told of it.
const MISUSED: [(&str, &str); 10] = [
    (
        "",
        "book needs one of: new, add, list, labels, pack, tidy; see: ttw help book",
    ),
    (
        "keep book",
        "there is no command book keep; see: ttw help book",
    ),
    (
        "new",
        "book new takes a book, given: none; see: ttw help book",
    ),
    (
        "add book",
        "book add takes a book and two Changes files, given: 1; see: ttw help book",
    ),
    (
        "list book",
        "book list takes a book and a table file, given: 1; see: ttw help book",
    ),
    ("tidy book --stop", "there is no option --stop here"),
    ("labels book first/changes1 --nth 1", "--nth needs --code"),
    (
        "labels book first/changes1 --count 1",
        "--count needs --place or --nth, to count from",
    ),
    (
        "labels book first/changes1 --place 1 --code AB1",
        "--place stands alone, without --code and --nth",
    ),
    ("pack book first/changes1 --all", "pack needs --out FOLDER"),
];

#[test]
fn wrong_usage_is_told() {
    let folder = kept();
    for (line, told) in MISUSED {
        book_line(&folder, line).only_tells(2, &format!("ttw: {told}"));
    }
}
