//! What the project is proved and built with stands in one place, `make test`
//! compares it before anything else, and says what is there and what is wanted.

mod support;

use std::fs;
use std::os::unix::fs::PermissionsExt;
use std::process::Command;
use support::pages::text_of;
use support::{names_in, root, run, Folder, Run};

const PINS: &str = "host/Cargo.toml";

/// The value of the one line of the pins that gives this name one.
fn pin(name: &str) -> String {
    let text = text_of(PINS);
    let start = format!("{name} = \"");
    let mut values = text.lines().filter_map(|line| line.strip_prefix(&start));
    let value = values.next().expect("a pin").trim_end_matches('"');
    assert_eq!(values.next(), None, "{name} is pinned once");
    value.to_string()
}

/// A program that prints a line, or fails where there is none.
fn program(folder: &Folder, name: &str, line: Option<&str>) {
    let body = line.map_or("exit 1".to_string(), |line| format!("echo '{line}'"));
    let path = folder.put(name, format!("#!/bin/sh\n{body}\n").as_bytes());
    fs::set_permissions(path, fs::Permissions::from_mode(0o755)).expect("a program");
}

/// The comparison on a machine whose programs say so.
fn compared(rt: Option<&str>, rustc: Option<&str>) -> Run {
    let folder = Folder::new();
    program(&folder, "rt", rt);
    program(&folder, "rustc", rustc);
    let path = std::env::var("PATH").expect("a path");
    run(Command::new(root().join("scripts/pinned"))
        .env("PATH", format!("{}:{path}", folder.0.display()))
        .env("RUSTC", folder.0.join("rustc")))
}

#[test]
fn what_is_here_is_what_is_wanted() {
    run(&mut Command::new(root().join("scripts/pinned"))).prints("");
}

#[test]
fn the_logic_has_to_be_one_of_those_and_the_kit_may_be_another() {
    let pinned = pin("logics");
    let logics: Vec<&str> = pinned.split(' ').collect();
    assert!(logics.iter().all(|logic| logic.len() == 16), "{logics:?}");
    let rust = format!("rustc {}.0 (a date)", pin("rust-version"));
    let right = |kit: &str, logic: &str| format!("{kit} logic {logic}");
    for kit in ["rattle-kit-5", "rattle-kit-5b", "rattle-kit-99"] {
        for logic in &logics {
            let run = compared(Some(&right(kit, logic)), Some(&rust));
            assert_eq!((run.status, run.told.as_str()), (Some(0), ""), "{kit}");
        }
    }
    let wanted = format!("wanted is logic {} ({PINS})", logics.join(" or "));
    let longer = format!("{}f", right("rattle-kit-5b", logics[0]));
    for kit in [
        "rattle-kit-5b logic 0123456789abcdef",
        &longer,
        &right("rattle-kit-5b", &format!("{pinned} {pinned}")),
        "rattle-kit-5b",
    ] {
        let told = format!("Rattle: here is {kit}, {wanted}");
        compared(Some(kit), Some(&rust)).only_tells(1, &told);
    }
    let told = format!("Rattle: here is no rt that says its version, {wanted}");
    compared(None, Some(&rust)).only_tells(1, &told);
}

#[test]
fn an_older_rust_is_told_and_a_later_one_will_do() {
    let logics = pin("logics");
    let logic = logics.split(' ').next().expect("a logic");
    let kit = format!("rattle-kit-5b logic {logic}");
    let least = pin("rust-version");
    let minor: u32 = least["1.".len()..].parse().expect("1 and a number");
    let wanted = format!("wanted is rustc {least} or later ({PINS})");
    let older = format!("rustc 1.{}.9 (a date)", minor - 1);
    for rust in [&older, "rustc 1.9.0", "rustc 0.999.0-nightly"] {
        let told = format!("Rust: here is {rust}, {wanted}");
        compared(Some(&kit), Some(rust)).only_tells(1, &told);
    }
    let later = format!("rustc 1.{}.0-nightly (a date)", minor + 1);
    for rust in [&format!("rustc {least}.0"), &later, "rustc 2.0.0"] {
        compared(Some(&kit), Some(rust)).prints("");
    }
    let told = format!("Rust: here is no rustc that says its version, {wanted}");
    compared(Some(&kit), None).only_tells(1, &told);
    let both = compared(Some("rattle-kit-1 logic 0"), Some("rustc 1.0.0"));
    assert_eq!((both.status, both.told.lines().count()), (Some(1), 2));
}

#[test]
fn make_test_compares_before_anything_else() {
    let script = text_of("scripts/test");
    let mut lines = script.lines().filter(|line| !line.starts_with('#'));
    assert_eq!(lines.next(), Some("set -euo pipefail"));
    assert!(lines.next().is_some_and(|line| line.starts_with("cd ")));
    assert_eq!(lines.next(), Some("scripts/pinned"));
}

#[test]
fn all_manifests_have_the_pinned_rust() {
    let mut manifests = 0;
    for name in names_in(&root().join("host")) {
        let manifest = format!("host/{name}/Cargo.toml");
        if root().join(&manifest).is_file() {
            let text = text_of(&manifest);
            let lines = text.lines().filter(|line| line.starts_with("rust-version"));
            let lines: Vec<&str> = lines.collect();
            assert_eq!(lines, ["rust-version.workspace = true"], "{manifest}");
            manifests += 1;
        }
    }
    assert_eq!(manifests, 6);
}
