//! Output that is lost is never status 0: closed, not for writing, full, or
//! refused when the last byte is to be taken.

mod support;

use paper::make::{exact_pair, set_of_pair, worked_pair, Rng};
use std::process::Command;
use support::faults::Faults;
use support::{compiled_handset, run, Folder, PRINTING_LABELS};

/// What prints no labels of a pair or a pack and no sectors, each way once.
const PRINTING_OTHERS: [&str; 17] = [
    "check changes1 changes2",
    "codes changes1 changes2",
    "unspace changes1",
    "main check set",
    "main codes set",
    "main labels set",
    "main labels set --view 1",
    "main labels set --code AB1 --nth 1 --count 1",
    "help",
    "help pack",
    "help files",
    "help --man",
    "help --bash",
    "--help",
    "show --help",
    "--version",
    "show --version",
];

/// Everything that prints.
fn printing() -> impl Iterator<Item = &'static str> {
    PRINTING_LABELS.into_iter().chain(PRINTING_OTHERS)
}

fn desk() -> Folder {
    let folder = Folder::with_pack(&worked_pair());
    folder.put_set(&set_of_pair(&worked_pair()).files);
    folder
}

#[test]
fn everything_that_prints_tells_that_it_cannot() {
    let folder = desk();
    let failures = [
        (">&-", "Bad file descriptor (os error 9)"),
        ("1</dev/null", "Bad file descriptor (os error 9)"),
        (">/dev/full", "No space left on device (os error 28)"),
    ];
    for arguments in printing() {
        let printed = folder.shell(&format!("\"$TTW\" {arguments}"));
        assert!(!printed.out.is_empty(), "{arguments} prints");
        for (output, why) in failures {
            let lost = folder.shell(&format!("\"$TTW\" {arguments} {output}"));
            assert_eq!(lost.status, Some(2), "{arguments} {output}");
            let told = format!("ttw: cannot print: {why}\n");
            assert_eq!(lost.told, told, "{arguments} {output}");
        }
    }
}

#[test]
fn an_empty_print_tells_it_too() {
    let folder = desk();
    let none = "show AB1.pack --nth 1 --count 0";
    folder.shell(&format!("\"$TTW\" {none}")).prints("");
    for output in [">&-", "1</dev/null"] {
        let lost = folder.shell(&format!("\"$TTW\" {none} {output}"));
        lost.only_tells(2, "ttw: cannot print: Bad file descriptor (os error 9)");
    }
}

#[test]
fn a_system_that_tells_of_a_lost_byte_only_at_the_end_is_heard() {
    let folder = desk();
    let faults = Faults::new(&folder);
    // Error 122: the disk's quota is exceeded.
    let settings = [("FAULTS_FAIL", "close 1 1 122"), ("FAULTS_FILE", "pipe:")];
    for arguments in printing() {
        let words: Vec<&str> = arguments.split(' ').collect();
        let lost = faults.ttw(&settings, &words).run;
        assert_eq!(lost.status, Some(2), "{arguments}");
        let told = "ttw: cannot print: Disk quota exceeded (os error 122)\n";
        assert_eq!(lost.told, told, "{arguments}");
    }
}

#[test]
fn what_is_not_printed_needs_no_output() {
    let folder = desk();
    let cut = "pack changes1 changes2 --all --out .";
    let run = folder.shell(&format!("\"$TTW\" {cut} >&-"));
    run.only_tells(0, "packs written: 1, codes refused: 0");
    let misused = folder.shell("\"$TTW\" chekc >&-");
    misused.only_tells(2, "ttw: there is no command \"chekc\"; see: ttw help");
}

#[test]
fn output_to_nowhere_is_no_loss() {
    let folder = desk();
    for output in [">/dev/null", "1<>/dev/null"] {
        let run = folder.shell(&format!("\"$TTW\" show AB1.pack {output}"));
        assert_eq!(run.status, Some(0), "{output}");
    }
}

/// Of the labels of one round a library that buffers writes some at once and
/// keeps none of them: then only `ferror` knows that they are lost.
#[test]
fn the_handsets_example_tells_it_too() {
    let folder = Folder::new();
    let pair = exact_pair(&mut Rng::new(66), 2_000, 2_000);
    let pack = ttw::ask::build(&pair.table, &pair.points, b"AB1 ", 0).expect("a pack");
    folder.put("long.pack", &pack);
    let program = compiled_handset(&folder);
    let asked = [
        ("", 1),
        ("1", 1),
        ("1 3", 1),
        ("1 120", 5_000),
        ("1 300", 20_000),
    ];
    for (asked, least) in asked {
        let mut handset = Command::new(&program);
        let numbers = asked.split_whitespace();
        let printed = run(handset
            .arg("long.pack")
            .args(numbers)
            .current_dir(&folder.0));
        assert_eq!(printed.status, Some(0), "{asked}");
        assert!(printed.out.len() >= least, "{asked}: {}", printed.out.len());
        for output in [">&-", "1</dev/null", ">/dev/full"] {
            let lost = folder.shell(&format!("./handset long.pack {asked} {output}"));
            assert_eq!(lost.status, Some(2), "{asked} {output}");
            assert_eq!(lost.told, "handset: cannot print\n", "{asked} {output}");
        }
    }
}
