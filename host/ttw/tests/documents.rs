//! What the documents show is what there is: every command in them is run and
//! its output compared, and every table that repeats something is checked.

mod support;

use std::fs;
use std::os::unix::fs::{symlink, PermissionsExt};
use std::process::Command;
use support::pages::{blocks, documents, rows, text_of, Block};
use support::{names_in, root, run, Folder, TTW};
use ttw::ask::Refusal;
use ttw::words::{book_words, main_words, words};

/// A folder in which a reader might stand: the repository's own places, `ttw`
/// and the library installed. `rt` has proved everything before these tests
/// run, and here says its version and does nothing.
fn desk() -> Folder {
    let folder = Folder::new();
    for name in [
        "Makefile",
        "crates",
        "crates.txt",
        "examples",
        "host",
        "include",
        "samples",
        "scripts",
        "target",
    ] {
        symlink(root().join(name), folder.0.join(name)).expect("a link");
    }
    let mut install = Command::new(root().join("scripts/install"));
    install.args(["usr", TTW]).env_remove("DESTDIR");
    run(install.current_dir(&folder.0)).prints("");
    let version = run(Command::new("rt").arg("version")).out;
    let said = format!(
        "#!/bin/sh\n[ \"$1\" != version ] || echo '{}'\n",
        version.trim()
    );
    let rt = folder.put("usr/bin/rt", said.as_bytes());
    fs::set_permissions(rt, fs::Permissions::from_mode(0o755)).expect("a program");
    folder
}

/// A command with what it is said to print.
struct Shown {
    command: String,
    output: String,
}

fn shown(blocks: &[Block], kind: &str) -> Vec<Shown> {
    let mut all: Vec<Shown> = Vec::new();
    for block in blocks.iter().filter(|block| block.kind == kind) {
        for line in &block.lines {
            match line.strip_prefix("$ ") {
                Some(command) => all.push(Shown {
                    command: command.to_string(),
                    output: String::new(),
                }),
                None => {
                    let last = all.last_mut().expect("a command before its output");
                    last.output += &format!("{line}\n");
                }
            }
        }
    }
    all
}

/// What stands between the outputs of two commands.
const NEXT: &str = "--- the next command ---\n";

/// The commands as one script, so that each sees what the ones before it did.
fn script(commands: &[Shown]) -> String {
    let mut script = "exec 2>&1\n".to_string();
    for shown in commands {
        script += &shown.command;
        script += &format!("\nstatus=$?; printf -- '{NEXT}'; (exit $status)\n");
    }
    script
}

/// Runs the commands in all blocks of a kind and compares: how many.
fn compared(kind: &str, desk: fn() -> Folder) -> usize {
    let mut compared = 0;
    for document in documents() {
        let text = fs::read_to_string(&document).expect("a document");
        let commands = shown(&blocks(&text), kind);
        if commands.is_empty() {
            continue;
        }
        let desk = desk();
        let path = std::env::var("PATH").expect("a path");
        let ran = run(Command::new("bash")
            .args(["-c", &script(&commands)])
            .env("PATH", format!("{}/usr/bin:{path}", desk.0.display()))
            .env("PKG_CONFIG_PATH", desk.0.join("usr/lib/pkgconfig"))
            .current_dir(&desk.0));
        let mut outputs = ran.out.split(NEXT);
        for shown in commands {
            let (output, place) = (outputs.next(), document.display());
            assert_eq!(
                output,
                Some(shown.output.as_str()),
                "{place}: {}",
                shown.command
            );
            compared += 1;
        }
    }
    compared
}

#[test]
fn every_command_shown_prints_what_is_shown() {
    assert!(compared("console", desk) >= 15);
}

/// A desk at which the library for the handset is installed too.
fn handset_desk() -> Folder {
    let folder = desk();
    let mut install = Command::new(root().join("scripts/install"));
    let arm = install.args(["--arm", "target/handset"]);
    run(arm.current_dir(&folder.0)).prints("");
    folder
}

#[test]
#[ignore = "make test-arm runs it"]
fn every_command_for_the_handset_prints_what_is_shown() {
    assert!(compared("console arm", handset_desk) >= 2);
}

#[test]
fn nothing_is_shown_that_is_not_checked() {
    for document in documents() {
        let text = fs::read_to_string(&document).expect("a document");
        for Block { kind, lines } in blocks(&text) {
            match kind.as_str() {
                "console" | "console arm" | "text" | "annotated" => {}
                "sh" => lines.iter().for_each(|line| assert_make_knows(line)),
                _ => panic!("{}: a block of kind {kind:?}", document.display()),
            }
        }
    }
}

/// Fails unless the line is a `make` command that the Makefile has a way for.
fn assert_make_knows(line: &str) {
    let mut words = line.split(' ');
    assert_eq!(words.next(), Some("make"), "{line}");
    let mut make = Command::new("make");
    let dry = run(make.arg("-n").args(words).current_dir(root()));
    assert_eq!(dry.status, Some(0), "{line}: {}", dry.told);
}

#[test]
fn make_help_names_every_way_of_the_makefile() {
    let help = run(Command::new("make").arg("help").current_dir(root())).out;
    let makefile = text_of("Makefile");
    let first = makefile
        .lines()
        .find_map(|line| line.strip_prefix(".PHONY: "));
    for way in first.expect("the ways").split(' ') {
        let hidden = ["help", "library"].contains(&way);
        assert!(hidden || help.contains(&format!("make {way} ")), "{way}");
    }
}

#[test]
fn the_files_that_documents_name_exist() {
    for document in documents() {
        let text = fs::read_to_string(&document).expect("a document");
        let words = text.split(|c: char| c.is_whitespace() || "`(),;:|".contains(c));
        for word in words.map(|word| word.trim_end_matches('.')) {
            let ours = [
                "crates/",
                "docs/",
                "include/",
                "examples/",
                "host/",
                "samples/",
                "scripts/",
            ];
            let names_a_file = ours.iter().any(|place| word.starts_with(place));
            if names_a_file && !word.contains("/target/") {
                assert!(root().join(word).exists(), "{}: {word}", document.display());
            }
        }
    }
}

#[test]
fn the_architecture_has_every_script() {
    let page = text_of("docs/ARCHITECTURE.md");
    let scripts = names_in(&root().join("scripts"));
    assert!(!scripts.is_empty());
    for name in scripts {
        assert!(page.contains(&format!("`scripts/{name}`")), "{name}");
    }
}

fn refusal(number: u8, file: u8, second: u64, detail: u64) -> Refusal {
    Refusal {
        number,
        file,
        second,
        detail,
    }
}

/// How a refusal is said: one of files or a pack, or one of a Mainfile set.
type Words = fn(&Refusal, &str) -> String;

/// Each message of docs/REFUSALS.md, as the command makes it.
fn messages() -> Vec<String> {
    let all: [(Words, Refusal, &str); 35] = [
        (words, refusal(1, 1, 0, 0), "files"),
        (main_words, refusal(1, 4, 0, 0), "files"),
        (words, refusal(2, 1, 0, 1), "files"),
        (words, refusal(3, 2, 0, 47), "files"),
        (words, refusal(4, 2, 83, 12), "files"),
        (words, refusal(5, 2, 0, 1204), "files"),
        (words, refusal(6, 2, 0, 7), "files"),
        (words, refusal(7, 0, 0, 0), "view 42"),
        (words, refusal(7, 0, 0, 0), "AB1 number 0"),
        (words, refusal(7, 0, 0, 0), "point 3"),
        (words, refusal(7, 0, 0, 0), "row 42"),
        (words, refusal(8, 0, 0, 1), "view 37"),
        (words, refusal(8, 0, 0, 2), "view 38"),
        (words, refusal(8, 0, 0, 3), "view 39"),
        (words, refusal(9, 0, 0, 1), "view 36"),
        (words, refusal(9, 0, 35, 6), "code AB1"),
        (main_words, refusal(9, 0, 0, 2), "view 40"),
        (main_words, refusal(9, 0, 0, 8), "view 46"),
        (words, refusal(10, 0, 0, 171), "AB1"),
        (words, refusal(11, 0, 0, 1), "pack"),
        (words, refusal(11, 0, 0, 2), "pack"),
        (words, refusal(11, 0, 0, 3), "pack"),
        (words, refusal(11, 0, 0, 4), "pack"),
        (words, refusal(12, 0, 0, 0), "code ab1"),
        (words, refusal(13, 0, 0, 0), "point 1"),
        (words, refusal(14, 0, 7, 2), "csv"),
        (words, refusal(14, 0, 17, 2), "csv"),
        (words, refusal(15, 0, 0, 0), "view 12"),
        (words, refusal(15, 0, 0, 0), "csv"),
        (book_words, refusal(17, 0, 0, 0), "view 3"),
        (book_words, refusal(18, 0, 0, 0), "view 7"),
        (book_words, refusal(19, 0, 0, 0), "view 12"),
        (book_words, refusal(20, 0, 0, 0), "view 257"),
        (words, refusal(27, 0, 0, 0), "sector 10"),
        (book_words, refusal(28, 0, 0, 0), "depot.book"),
    ];
    all.map(|(words, why, subject)| words(&why, subject))
        .to_vec()
}

#[test]
fn the_page_of_refusals_has_the_words_that_a_user_sees() {
    let text = text_of("docs/REFUSALS.md");
    let quoted: Vec<&str> = text
        .lines()
        .filter_map(|line| line.strip_prefix("> `")?.strip_suffix('`'))
        .collect();
    assert_eq!(quoted, messages());
    let headings: Vec<&str> = text
        .lines()
        .filter_map(|line| line.strip_prefix("## ")?.split(':').next())
        .collect();
    let numbers = (1..=15).chain(17..=20).chain([27, 28]);
    let numbers: Vec<String> = numbers.map(|number: u8| number.to_string()).collect();
    assert_eq!(headings, numbers);
}

/// What the header gives a name, as `NAME = NUMBER`.
fn names_of_the_header() -> Vec<String> {
    let header = text_of("include/ttwibonal.h");
    let lines = header.lines().map(|line| line.trim().trim_end_matches(','));
    let names = lines.filter(|line| line.starts_with("TTW_REFUSED_"));
    names.map(str::to_string).collect()
}

#[test]
fn the_page_of_refusals_has_the_names_of_the_header() {
    let text = text_of("docs/REFUSALS.md");
    let headings = text.lines().filter_map(|line| line.strip_prefix("## "));
    let names = headings.map(|heading| {
        let (number, rest) = heading.split_once(": ").expect("a number");
        let name = rest.split_once('(').expect("a name").1;
        format!("{} = {number}", name.trim_end_matches(')'))
    });
    assert_eq!(names.collect::<Vec<String>>(), names_of_the_header());
}

#[test]
fn the_header_has_the_version_and_the_longest_label_and_row() {
    let header = text_of("include/ttwibonal.h");
    let version = env!("CARGO_PKG_VERSION");
    let longest = ttw::ask::LABEL;
    for line in [
        format!("#define TTW_VERSION \"{version}\""),
        format!("#define TTW_LABEL_MAX {longest}"),
        format!("#define TTW_CSV_ROW_MAX {longest}"),
    ] {
        assert!(header.lines().any(|is| is == line), "{line}");
    }
}

#[test]
fn the_header_has_the_length_of_a_book() {
    let line = format!("#define TTW_BOOK_LEN {}", ttw::ask::BOOK);
    let header = text_of("include/ttwibonal.h");
    assert!(header.lines().any(|is| is == line), "{line}");
}

/// The header, the pkg-config file, the man page and `ttw --version` are held to the
/// same version where each of them is tested.
#[test]
fn the_changes_begin_with_the_version() {
    let changes = text_of("CHANGELOG.md");
    let newest = changes.lines().find_map(|line| line.strip_prefix("## "));
    assert_eq!(newest, Some(env!("CARGO_PKG_VERSION")));
}

#[test]
fn the_page_for_trainers_has_every_sample() {
    let labels = text_of("samples/labels.txt");
    let mut expected: Vec<String> = Vec::new();
    for line in labels.lines().skip(1) {
        match line.strip_prefix("view ") {
            Some(view) => expected.push(view.replace(' ', " | ") + " | "),
            None => {
                let label = expected.last_mut().expect("a view");
                let joint = if label.ends_with("| ") { "" } else { " / " };
                *label += &format!("{joint}{line}");
            }
        }
    }
    let shown: Vec<String> = rows(&text_of("docs/TRAINING.md"), "| view |")
        .into_iter()
        .inspect(|cells| assert!(!cells[3].is_empty()))
        .map(|cells| cells[..3].join(" | "))
        .collect();
    assert_eq!(shown, expected);
}

/// The labels of a listing, or their refusals, a slash between lines.
fn listed(name: &str) -> Vec<String> {
    let text = text_of(name);
    let items = text.split("view ").skip(1);
    let label = |item: &str| item.lines().skip(1).collect::<Vec<&str>>().join(" / ");
    items.map(label).collect()
}

#[test]
fn the_page_for_trainers_has_every_sample_of_a_set() {
    let (of_a_pair, of_a_set) = (
        listed("samples/labels.txt"),
        listed("samples/main-labels.txt"),
    );
    assert_eq!(of_a_set[..26], of_a_pair[..26]);
    let shown = rows(&text_of("docs/TRAINING.md"), "| address |");
    assert!(shown.iter().all(|cells| !cells[2].is_empty()));
    let shown: Vec<String> = shown.iter().map(|cells| cells[..2].join(" | ")).collect();
    let views = of_a_set.iter().zip(1..).skip(26);
    let expected: Vec<String> = views
        .map(|(label, view)| format!("{view} | {label}"))
        .collect();
    assert_eq!(shown, expected);
}

#[test]
fn each_landing_and_the_table_of_times_name_each_other() {
    let table = "docs/landings/TIMES.md";
    let times = text_of(table);
    for name in names_in(&root().join("docs/landings")) {
        let note = format!("docs/landings/{name}");
        if note != table {
            assert!(times.contains(&note), "{table} does not name {note}");
            assert!(
                text_of(&note).contains(table),
                "{note} does not name {table}"
            );
        }
    }
}
