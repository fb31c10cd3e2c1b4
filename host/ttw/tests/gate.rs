//! `scripts/test`, the gate: what it asks of `rt`, what it makes of the answer, and over which libraries it tests. Here `rt`
//! and the other scripts are short ones that write down that they ran.

mod support;

use std::fs;
use std::os::unix::fs::PermissionsExt;
use support::{root, Folder, Run};

/// What rt says where all is well, but for what it says of the edits.
const OK: &str = "rt: ok; handles allowed: none; must-fail edits: 5 refused";

/// Writes down what it is asked, leaves a library and a program in the crates' folders, and puts back what stood there, as
/// `rt ci` does.
const RT: &str = r#"#!/bin/bash
echo "rt $*" >>asked
for name in low main; do [ ! -d "crates/$name/out" ] || mv "crates/$name/out" "aside-$name"; done
mkdir -p crates/low/out/rlib/low.rlib crates/main/out
echo made >crates/main/out/main
for name in low main; do
    if [ -d "aside-$name/rlib" ]; then
        rm -rf "crates/$name/out/rlib"
        mv "aside-$name/rlib" "crates/$name/out"
    fi
    rm -rf "aside-$name"
done
cat said
exit "$(cat status)"
"#;

fn program(folder: &Folder, name: &str, text: &str) {
    let path = folder.put(name, text.as_bytes());
    fs::set_permissions(path, fs::Permissions::from_mode(0o755)).expect("a program");
}

/// A checkout with nothing built, in which rt will say so.
fn desk(said: &str, status: u8) -> Folder {
    let folder = Folder::new();
    for name in ["scripts", "crates/low/src", "crates/main/src"] {
        fs::create_dir_all(folder.0.join(name)).expect("a folder");
    }
    folder.put("crates/low/src/lib.rt", b"");
    folder.put("crates/main/src/main.rt", b"");
    folder.put("said", said.as_bytes());
    folder.put("status", format!("{status}\n").as_bytes());
    fs::copy(root().join("scripts/test"), folder.0.join("scripts/test")).expect("a copy");
    for name in [
        "pinned",
        "archive",
        "prove",
        "library-arm",
        "x86-64",
        "test-arm",
    ] {
        let text = format!("#!/bin/bash\necho \"{name} $*\" >>asked\n[ ! -e fails-{name} ]\n");
        program(&folder, &format!("scripts/{name}"), &text);
    }
    program(&folder, "rt", RT);
    folder
}

fn gate(folder: &Folder) -> Run {
    folder.shell("PATH=$PWD:$PATH; scripts/test")
}

/// What ran since the last time, in its order.
fn asked(folder: &Folder) -> Vec<String> {
    let text = fs::read_to_string(folder.0.join("asked")).unwrap_or_default();
    let _ = fs::remove_file(folder.0.join("asked"));
    text.lines()
        .map(|line| line.trim_end().to_string())
        .collect()
}

/// What runs over libraries that were brought up to date in one way or the other.
fn whole(libraries: &[&str]) -> Vec<String> {
    let before = ["pinned", "rt ci"];
    let after = [
        "prove --made ttwibonal ttwvan test_leaves main",
        "library-arm ttwibonal",
        "library-arm ttwvan",
        "x86-64 cargo test --offline --quiet --manifest-path host/Cargo.toml --workspace",
        "test-arm --short",
    ];
    let all = before.iter().chain(libraries).chain(&after);
    all.map(|line| line.to_string()).collect()
}

const ARCHIVES: [&str; 3] = ["archive ttwibonal", "archive ttwvan", "archive test_leaves"];

#[test]
fn rt_comes_first_and_its_last_line_last() {
    let folder = desk(&format!("one\n{OK}\n3 passed, 0 failed\n"), 0);
    // The second run finds what the first one left.
    for _ in 0..2 {
        gate(&folder).prints(&format!("one\n{OK}\n3 passed, 0 failed\n"));
        assert_eq!(asked(&folder), whole(&ARCHIVES));
        assert_eq!(folder.read("target/bin/main"), b"made\n");
        folder.shell("find . -name rlib; find . -type l").prints("");
    }
}

#[test]
fn nothing_follows_where_rt_fails() {
    for (said, status) in [("2 passed, 1 failed", 1), ("0 passed, 1 failed", 2)] {
        let folder = desk(&format!("rt: FAILED: low\n{said}\n"), status);
        let run = gate(&folder);
        assert_eq!(run.status, Some(i32::from(status)), "{run:?}");
        assert_eq!(run.out, format!("rt: FAILED: low\n{said}\n"));
        assert_eq!(asked(&folder), ["pinned", "rt ci"]);
        folder.shell("find . -name rlib").prints("");
    }
}

#[test]
fn an_edit_that_cannot_be_tried_is_a_failure() {
    let last = "3 passed, 0 failed";
    for (edits, bad) in [
        (", 2 bad", "2"),
        (", 1 of them only by a limit, 12 bad", "12"),
    ] {
        let folder = desk(&format!("{OK}{edits}; every one\n{last}\n"), 0);
        let run = gate(&folder);
        assert_eq!(run.status, Some(1), "{run:?}");
        assert!(!run.out.contains(last), "{run:?}");
        let told = format!("Must-fail edits that could not be tried: {bad}. ");
        assert!(run.told.starts_with(&told), "{run:?}");
        assert_eq!(asked(&folder), ["pinned", "rt ci"]);
    }
    for edits in [", 0 bad", ", 1 of them only by a limit", ""] {
        let folder = desk(&format!("{OK}{edits}; every one\n{last}\n"), 0);
        assert_eq!(gate(&folder).status, Some(0), "{edits}");
    }
    let folder = desk(&format!("rt: well\n{last}\n"), 0);
    assert_eq!(gate(&folder).status, Some(1));
}

/// What rt's other commands left is put back by it over what it made itself, so that the archives would be made over
/// libraries that may be of something else.
#[test]
fn libraries_that_stood_before_are_brought_up_to_date() {
    let folder = desk(&format!("{OK}\n3 passed, 0 failed\n"), 0);
    let prove = ["prove ttwibonal ttwvan test_leaves"];
    folder
        .shell("mkdir -p crates/low/out/rlib; echo sum >crates/low/out/rlib/stamp")
        .prints("");
    assert_eq!(gate(&folder).status, Some(0));
    assert_eq!(asked(&folder), whole(&prove));
    assert_eq!(folder.read("crates/low/out/rlib/stamp"), b"sum\n");
    folder.shell("rm crates/low/out/rlib/stamp").prints("");
    assert_eq!(gate(&folder).status, Some(0));
    assert_eq!(asked(&folder), whole(&prove));
    folder.shell("find . -name rlib").prints("");
}

#[test]
fn the_last_line_is_not_printed_where_anything_else_fails() {
    for name in ["pinned", "archive", "library-arm", "x86-64", "test-arm"] {
        let folder = desk(&format!("{OK}\n3 passed, 0 failed\n"), 0);
        folder.put(&format!("fails-{name}"), b"");
        let run = gate(&folder);
        assert_eq!(run.status, Some(1), "{name}: {run:?}");
        assert!(!run.out.contains("passed"), "{name}: {run:?}");
        let last = asked(&folder).pop().expect("a run");
        assert_eq!(last.split(' ').next(), Some(name));
    }
}
