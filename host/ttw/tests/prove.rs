//! `scripts/prove`, which `make` asks for the library: it says what is happening
//! before it begins, keeps the prover's words in a log, and does nothing where
//! nothing has changed. Here `rt` and the kit's `rattle` are short scripts that
//! prove nothing.

mod support;

use std::fs;
use std::os::unix::fs::PermissionsExt;
use std::process::Command;
use support::pages::text_of;
use support::{is_installed, root, run, Folder, Run};

/// A repository of a library over two crates and a program over one of them.
const CRATES: &str =
    "# Lowest first.\nlow:\nmiddle: low\ntop staticlib: low middle\nshown: middle io\nbeside:\n";

/// Writes down what it is asked in a crate's folder, says what a prover might, and
/// leaves what it would make.
const RT: &str = r#"#!/bin/bash
desk=${0%/*}
[ "$1" != version ] || { cat "$desk/kit"; exit; }
[ "$1" != doc ] || { echo "$desk/tools/START-HERE.md"; exit; }
name=${PWD##*/}
if [ "$1" = run ]; then
    echo "run $name" >>"$desk/asked"
    echo program >"out/$name"
    exit
fi
[ "$1 $2 $3" = 'all check --jobs' ] || exit 2
echo "check $name jobs $4" >>"$desk/asked"
for each in low middle "$name"; do
    [ "$each" != "$name" ] || [ ! -e "$desk/slow" ] || sleep 2.5
    echo "== $each"
    echo "fn $each::f: proved"
    [ ! -e "$desk/fails-$each" ] || { echo "$each: error: no" >&2; exit 3; }
    mkdir -p "$desk/crates/$each/out/rlib"
    touch "$desk/crates/$each/out/rlib/stamp"
done
echo "== summary"
"#;

/// Makes a library of all the code, and has the compiler compile a module on the
/// way.
const RATTLE: &str = r#"#!/bin/bash
desk=${0%/tools/bin/rattle}
while [ $# -gt 0 ]; do
    case $1 in
    --crate-name) name=$2 ;;
    --jobs) jobs=$2 ;;
    --toolchain) tools=$2 ;;
    -o) made=$2 ;;
    esac
    shift
done
echo "build $name jobs $jobs" >>"$desk/asked"
[ ! -e "$desk/fails-build" ] || exit 4
echo module >module.bc
"$tools/bin/clang" -c module.bc || exit
rm module.bc
cat "$desk"/crates/*/src/* >"$made"
"#;

/// A program of that name and text in the folder.
fn program(folder: &Folder, name: &str, text: &str) {
    let path = folder.put(name, text.as_bytes());
    fs::set_permissions(path, fs::Permissions::from_mode(0o755)).expect("a program");
}

fn desk() -> Folder {
    let folder = Folder::new();
    for name in ["scripts", "tools/bin", "tools/toolchain/bin"] {
        fs::create_dir_all(folder.0.join(name)).expect("a folder");
    }
    for name in ["scripts/archive", "scripts/prove", "scripts/jobs"] {
        fs::copy(root().join(name), folder.0.join(name)).expect("a copy");
    }
    folder.put("crates.txt", CRATES.as_bytes());
    for name in ["low", "middle", "top", "shown", "beside"] {
        let code = folder.0.join("crates").join(name).join("src");
        fs::create_dir_all(&code).expect("a folder");
        let file = if name == "shown" { "main.rt" } else { "lib.rt" };
        fs::write(code.join(file), name).expect("a file");
    }
    program(&folder, "rt", RT);
    program(&folder, "tools/bin/rattle", RATTLE);
    let compiler = "#!/bin/sh\n[ \"$*\" = '-c module.bc' ] && [ -e module.bc ]\n";
    program(&folder, "tools/toolchain/bin/clang", compiler);
    folder.put("kit", b"kit 1 logic 0\n");
    folder
}

/// A line of shell that runs the script.
fn prove(folder: &Folder, line: &str) -> Run {
    folder.shell(&format!("PATH=$PWD:$PATH; {line}"))
}

/// What rt was asked since the last time, without the number of jobs.
fn asked(folder: &Folder) -> Vec<String> {
    let text = fs::read_to_string(folder.0.join("asked")).unwrap_or_default();
    let _ = fs::remove_file(folder.0.join("asked"));
    let lines = text.lines().map(|line| line.split(" jobs ").next());
    lines.map(|line| line.unwrap_or("").to_string()).collect()
}

/// Fails unless the run made the library anew.
#[track_caller]
fn made_anew(folder: &Folder) {
    let run = prove(folder, "scripts/prove top");
    assert_eq!((run.status, run.out.as_str()), (Some(0), ""), "{run:?}");
    assert_eq!(asked(folder), ["check top", "build top"]);
}

/// Fails unless the run did nothing and said nothing.
#[track_caller]
fn silent(folder: &Folder, names: &str) {
    let run = prove(folder, &format!("scripts/prove {names}"));
    let nothing = Run {
        status: Some(0),
        out: String::new(),
        told: String::new(),
    };
    assert_eq!(run, nothing);
    assert!(asked(folder).is_empty());
}

#[test]
fn the_first_line_says_what_and_how_long_and_the_prover_speaks_in_a_log() {
    let folder = desk();
    let run = prove(&folder, "scripts/prove top shown");
    assert_eq!((run.status, run.out.as_str()), (Some(0), ""), "{run:?}");
    let told: Vec<&str> = run.told.lines().collect();
    assert!(
        told[0].starts_with("Proving 4 of 4 crates, about "),
        "{told:?}"
    );
    assert!(told[0].contains(" min where all "), "{told:?}");
    assert!(told[0].ends_with(" What rt says goes into target/prove.log."));
    let last = told.last().expect("a last line");
    assert!(
        last.starts_with("4 of 4 crates proved, 0 min 0"),
        "{told:?}"
    );
    assert!(!run.told.contains("fn low::f"), "{told:?}");
    let log = String::from_utf8(folder.read("target/prove.log")).expect("text");
    assert!(log.contains("== low\nfn low::f: proved\n"));
    let expected = ["check top", "check shown", "build top", "run shown"];
    assert_eq!(asked(&folder), expected);
    assert_eq!(folder.read("target/bin/shown"), b"program\n");
}

#[test]
fn a_few_lines_of_progress_where_there_is_no_terminal() {
    let folder = desk();
    folder.put("slow", b"");
    let run = prove(&folder, "scripts/prove top");
    let lines: Vec<&str> = run.told.lines().collect();
    assert!(
        lines[1].starts_with("2 of 3 crates proved, 0 min 0"),
        "{lines:?}"
    );
    assert_eq!(lines.len(), 3, "{lines:?}");
    assert!(!run.told.contains('\r'));
}

#[test]
fn one_line_that_is_written_over_on_a_terminal() {
    if !is_installed("script") {
        eprintln!("Left out: the progress on a terminal, which needs script.");
        return;
    }
    let folder = desk();
    folder.put("slow", b"");
    let run = prove(
        &folder,
        "script -qec 'scripts/prove top' /dev/null </dev/null",
    );
    assert_eq!(run.status, Some(0), "{run:?}");
    assert!(
        run.out.contains("\r\u{1b}[K2 of 3 crates proved, 0 min 0"),
        "{run:?}"
    );
    let lines = run.out.matches('\n').count();
    assert_eq!(lines, 2, "{run:?}");
}

#[test]
fn nothing_is_done_where_nothing_has_changed() {
    let folder = desk();
    made_anew(&folder);
    silent(&folder, "top");
    fs::write(folder.0.join("crates/low/src/lib.rt"), "changed").expect("written");
    made_anew(&folder);
    silent(&folder, "top");
    // Bytes count and not ages.
    let archive = folder.0.join("target/staticlib/libtop.a");
    fs::write(&archive, "another").expect("written");
    made_anew(&folder);
    fs::remove_file(&archive).expect("removed");
    made_anew(&folder);
    folder.put("kit", b"kit 2 logic 0\n");
    made_anew(&folder);
    silent(&folder, "top");
    fs::remove_dir_all(folder.0.join("target")).expect("removed");
    made_anew(&folder);
    silent(&folder, "top");
    assert_eq!(prove(&folder, "scripts/prove shown").status, Some(0));
    assert_eq!(asked(&folder), ["check shown", "run shown"]);
    silent(&folder, "top shown");
}

/// As where the notes of what is made are gone.
#[test]
fn nothing_is_said_where_all_is_proved_already() {
    let folder = desk();
    made_anew(&folder);
    fs::remove_dir_all(folder.0.join("target/made")).expect("removed");
    let run = prove(&folder, "scripts/prove top");
    assert_eq!((run.status, run.told.as_str()), (Some(0), ""), "{run:?}");
    assert_eq!(asked(&folder).len(), 2);
    let changed = "echo changed >crates/middle/src/lib.rt; scripts/prove top";
    let run = prove(&folder, changed);
    assert!(run.told.starts_with("Proving 2 of 3 crates, "), "{run:?}");
    let run = prove(
        &folder,
        "rm -r crates/low/out; : >target/made/top; scripts/prove top",
    );
    assert!(run.told.starts_with("Proving 3 of 3 crates, "), "{run:?}");
}

/// As at the end of the gate, where another has proved everything and made it.
#[test]
fn what_another_made_can_be_noted() {
    let folder = desk();
    made_anew(&folder);
    let notes = |folder: &Folder| {
        (
            folder.read("target/made/top"),
            folder.read("target/proved/low"),
        )
    };
    let noted = notes(&folder);
    prove(
        &folder,
        "rm -r target/made target/proved; scripts/prove --made top",
    )
    .prints("");
    assert!(asked(&folder).is_empty());
    assert_eq!(notes(&folder), noted);
    silent(&folder, "top");
    // Nothing that is not there.
    prove(
        &folder,
        "rm target/module/top/module.bc; scripts/prove --made top",
    )
    .prints("");
    made_anew(&folder);
}

#[test]
fn the_module_of_a_library_is_kept_and_no_link_is_left() {
    let folder = desk();
    made_anew(&folder);
    assert_eq!(
        folder.names("target/module/top"),
        ["arguments", "module.bc"]
    );
    assert_eq!(folder.read("target/module/top/module.bc"), b"module\n");
    assert_eq!(
        folder.read("target/module/top/arguments"),
        b"-c\nmodule.bc\n"
    );
    assert_eq!(
        folder.read("target/staticlib/libtop.a"),
        folder.read("crates/top/out/libtop.a")
    );
    folder.shell("find . -type l").prints("");
}

/// rt takes its time to see that nothing has changed.
#[test]
fn something_is_said_where_it_takes_a_while_all_the_same() {
    let folder = desk();
    made_anew(&folder);
    fs::remove_dir_all(folder.0.join("target/made")).expect("removed");
    folder.put("slow", b"");
    let run = prove(
        &folder,
        "sed -i 's/^patience=.*/patience=1/' scripts/prove; scripts/prove top",
    );
    let lines: Vec<&str> = run.told.lines().collect();
    let first = "Looking whether 3 crates are still proved, less than a minute where all ";
    assert!(lines[0].starts_with(first), "{lines:?}");
    let last = lines.last().expect("a line");
    assert!(
        last.starts_with("3 of 3 crates proved, 0 min 0"),
        "{lines:?}"
    );
}

#[test]
fn a_kit_that_does_not_say_what_it_is_leaves_no_note() {
    let folder = desk();
    made_anew(&folder);
    let noted = folder.read("target/made/top");
    folder.put("kit", b"");
    made_anew(&folder);
    made_anew(&folder);
    assert_eq!(folder.read("target/made/top"), noted);
    folder.put("kit", b"kit 1 logic 0\n");
    silent(&folder, "top");
}

#[test]
fn a_failure_names_the_log_and_shows_its_end() {
    let folder = desk();
    folder.put("fails-middle", b"");
    let run = prove(&folder, "scripts/prove top");
    assert_eq!((run.status, run.out.as_str()), (Some(3), ""), "{run:?}");
    let end = "Not proved: rt ended with status 3. Its own words are in target/prove.log, which ends so:\n\
         == low\nfn low::f: proved\n== middle\nfn middle::f: proved\nmiddle: error: no\n";
    assert!(run.told.ends_with(end), "{run:?}");
    assert_eq!(asked(&folder), ["check top"]);
    fs::remove_file(folder.0.join("fails-middle")).expect("removed");
    made_anew(&folder);
    folder.put("fails-top", b"");
    folder.put("kit", b"kit 2 logic 0\n");
    let run = prove(&folder, "scripts/prove top");
    assert_eq!(run.status, Some(3), "{run:?}");
    asked(&folder);
    fs::remove_file(folder.0.join("fails-top")).expect("removed");
    folder.put("fails-build", b"");
    let run = prove(&folder, "scripts/prove top");
    assert_eq!(run.status, Some(4), "{run:?}");
    asked(&folder);
    fs::remove_file(folder.0.join("fails-build")).expect("removed");
    made_anew(&folder);
}

#[test]
fn jobs_are_decided_in_one_place() {
    let folder = desk();
    let jobs = |line: &str| {
        prove(
            &folder,
            &format!("rm -rf target asked; {line} scripts/prove top"),
        );
        let asked = String::from_utf8(folder.read("asked")).expect("text");
        let jobs = asked.lines().map(|line| line.split(" jobs ").nth(1));
        jobs.map(|jobs| jobs.expect("jobs").to_string())
            .collect::<Vec<String>>()
    };
    assert_eq!(jobs("RT_JOBS=7"), ["7", "7"]);
    let given = folder.shell("RT_JOBS=7 scripts/jobs").out;
    assert_eq!(given, "7\n");
    let chosen: u32 = jobs("unset RT_JOBS;")[0].parse().expect("a number");
    let cores = std::thread::available_parallelism().map_or(1, usize::from);
    assert!((1..=cores as u32).contains(&chosen), "{chosen}");
    for script in ["scripts/archive", "scripts/prove"] {
        let text = text_of(script);
        assert!(text.contains("\njobs=$(scripts/jobs)\n"), "{script}");
        assert!(!text.contains("MemAvailable"), "{script}");
    }
}

#[test]
fn make_asks_for_the_library_in_this_way_alone() {
    for way in [
        "run",
        "ttw",
        "bench",
        "fuzz",
        "install",
        "annotate",
        "library-arm",
    ] {
        let mut make = Command::new("make");
        let dry = run(make.args(["-n", way]).current_dir(root())).out;
        let first = dry.lines().next().expect("a line");
        assert!(first.starts_with("scripts/prove ttwibonal"), "{way}: {dry}");
        assert_eq!(dry.matches("scripts/prove").count(), 1, "{way}: {dry}");
        assert!(
            !dry.lines().any(|line| line.starts_with("rt ")),
            "{way}: {dry}"
        );
    }
}

#[test]
fn a_kit_that_is_not_there_ends_it_before_anything_is_said() {
    let folder = desk();
    folder.put("rt", b"#!/bin/sh\necho none >&2\nexit 127\n");
    prove(&folder, "scripts/prove top").only_tells(127, "none");
    assert!(!folder.0.join("target").exists());
}

#[test]
fn no_name_is_wrong_usage() {
    let mut script = Command::new(root().join("scripts/prove"));
    run(&mut script).only_tells(2, "usage: scripts/prove [--made] NAME..");
}
