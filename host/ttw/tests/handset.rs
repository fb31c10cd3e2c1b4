//! `examples/handset.c`: compiled from the header alone without a warning, run
//! on packs good and bad, and once more under valgrind where it is installed.

mod support;

use paper::make::{
    damaged_packs, exact_pair, full_draft, worked_pack, worked_pair, Rng, BUILT, FIRST,
};
use std::path::Path;
use std::process::Command;
use support::{compiled_handset, is_emulated, is_installed, run, Folder, Run};
use ttw::ask;

const LABEL: &str = "ATTIC FLAT\n110-114 QUARRY LANE\nHARTWELL BAY\nAB1 9ZZ\n";

/// A folder with the packs that are tried.
fn packs() -> Folder {
    let folder = Folder::with_pack(&worked_pair());
    for step in 1..=4 {
        let packs = damaged_packs();
        let damaged = packs.iter().find(|damaged| damaged.step == step);
        let pack = &damaged.expect("a pack for each step").pack;
        folder.put(&format!("damaged{step}.pack"), pack);
    }
    folder.put("empty.pack", b"");
    folder.put("older.pack", &worked_pack(FIRST));
    folder.put("full.pack", &full_draft(BUILT).bytes());
    folder
}

/// What the program is asked, its exit status and what it prints.
const ASKED: [(&[&str], i32, &str); 18] = [
    (&["AB1.pack"], 0, "points: 1\nsector 9: 1\n"),
    (&["full.pack"], 0, "points: 3\nsector 0: 1\nsector 9: 2\n"),
    (
        &["AB1.pack", "1"],
        0,
        "ATTIC FLAT\n110-114 QUARRY LANE\nHARTWELL BAY\nAB1 9ZZ\nsuffix: 1A\n",
    ),
    (&["older.pack"], 0, "points: 1\nsector 9: 1\n"),
    (
        &["older.pack", "1"],
        0,
        "ATTIC FLAT\n110-114 QUARRY LANE\nHARTWELL BAY\nAB1 9ZZ\n\
         suffix: none in this pack, which is of an older edition\n",
    ),
    (&["older.pack", "1", "1"], 0, LABEL),
    (
        &["older.pack", "2"],
        1,
        "This pack has no point of that number.\n",
    ),
    (&["AB1.pack", "1", "1"], 0, LABEL),
    (&["AB1.pack", "1", "0"], 0, ""),
    (
        &["AB1.pack", "1", "40"],
        1,
        "ATTIC FLAT\n110-114 QUARRY LANE\nHARTWELL BAY\nAB1 9ZZ\n\
         This pack has no point of that number.\n",
    ),
    (
        &["damaged2.pack", "1", "40"],
        1,
        "This pack is damaged: its rows. Load it again.\n",
    ),
    (
        &["AB1.pack", "0"],
        1,
        "This pack has no point of that number.\n",
    ),
    (
        &["AB1.pack", "2"],
        1,
        "This pack has no point of that number.\n",
    ),
    (
        &["empty.pack"],
        1,
        "This pack is damaged: its end. Load it again.\n",
    ),
    (
        &["damaged1.pack"],
        1,
        "This pack is damaged: its end. Load it again.\n",
    ),
    (
        &["damaged2.pack", "1"],
        1,
        "This pack is damaged: its rows. Load it again.\n",
    ),
    (
        &["damaged3.pack", "1"],
        1,
        "This pack is damaged: its points. Load it again.\n",
    ),
    (
        &["damaged4.pack"],
        1,
        "This pack is damaged: its counts. Load it again.\n",
    ),
];

fn ask_all(folder: &Folder, command: impl Fn() -> Command) {
    for (arguments, status, out) in ASKED {
        let asked = run(command().args(arguments).current_dir(&folder.0));
        let expected = Run {
            status: Some(status),
            out: out.to_string(),
            told: String::new(),
        };
        assert_eq!(asked, expected, "{arguments:?}");
    }
}

#[test]
fn the_example_prints_labels_and_says_refusals() {
    let folder = packs();
    let program = compiled_handset(&folder);
    ask_all(&folder, || Command::new(&program));
    let missing = run(Command::new(&program)
        .arg("none.pack")
        .current_dir(&folder.0));
    missing.only_tells(
        2,
        "handset: cannot load none.pack: No such file or directory",
    );
    let steering = run(Command::new(&program).arg("\u{1b}[31m\u{e9}"));
    steering.only_tells(
        2,
        "handset: cannot load \\x1b[31m\\xc3\\xa9: No such file or directory",
    );
    let misuses: [&[&str]; 4] = [
        &[],
        &["AB1.pack", "x"],
        &["AB1.pack", "1", "x"],
        &["AB1.pack", "1", "2", "3"],
    ];
    for arguments in misuses {
        let misused = run(Command::new(&program)
            .args(arguments)
            .current_dir(&folder.0));
        let version = env!("CARGO_PKG_VERSION");
        let usage = format!("usage: handset PACK [NUMBER [COUNT]] (ttwibonal {version})");
        misused.only_tells(2, &usage);
    }
}

/// More labels than the example has room for at a time.
#[test]
fn the_example_prints_many_labels() {
    let pair = exact_pair(&mut Rng::new(65), 2_000, 2_000);
    let pack = ask::build(&pair.table, &pair.points, b"AB1 ", 0).expect("a pack");
    let points = ask::pack(&pack).expect("it opens");
    let label = |k| ask::pack_label(&pack, k).expect("a label");
    let labels: Vec<u8> = (2..=points).flat_map(label).collect();
    assert!(labels.len() > 40 * 499, "{}", labels.len());
    let folder = Folder::new();
    folder.put("long.pack", &pack);
    let count = (points - 1).to_string();
    let printed = run(Command::new(compiled_handset(&folder))
        .args(["long.pack", "2", &count])
        .current_dir(&folder.0));
    printed.prints(&String::from_utf8_lossy(&labels));
}

fn under_valgrind(program: &Path) -> Command {
    let mut command = Command::new("valgrind");
    command.args(["--quiet", "--error-exitcode=9", "--leak-check=full"]);
    command.arg(program);
    command
}

#[test]
fn valgrind_finds_nothing_in_the_example() {
    if is_installed("valgrind") && !is_emulated() {
        let folder = packs();
        let program = compiled_handset(&folder);
        ask_all(&folder, || under_valgrind(&program));
    }
}
