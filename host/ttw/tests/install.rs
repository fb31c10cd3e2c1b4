//! `scripts/install`: what it copies is all that a C program and a person need.

mod support;

use paper::make::worked_pair;
use std::fs;
use std::os::unix::fs::{symlink, MetadataExt, PermissionsExt};
use std::process::Command;
use support::{root, run, Folder, Run, TTW};

/// What the example prints of the worked pack's point.
const PRINTED: &str = "ATTIC FLAT\n110-114 QUARRY LANE\nHARTWELL BAY\nAB1 9ZZ\nsuffix: 1A\n";

/// Runs the script in a folder, below a stage or none.
fn install(folder: &Folder, stage: &str, prefix: &str) -> Run {
    let mut install = Command::new(root().join("scripts/install"));
    install.env("DESTDIR", stage).args([prefix, TTW]);
    run(install.current_dir(&folder.0))
}

/// Fails unless a program can be built from what stands below that folder, and
/// prints a label.
#[track_caller]
fn a_program_is_built(folder: &Folder, prefix: &str) {
    let version = folder.shell(&format!("'{prefix}/bin/ttw' --version"));
    version.prints(&format!("ttw {}\n", env!("CARGO_PKG_VERSION")));
    let described = format!("grep '^Version: ' '{prefix}/lib/pkgconfig/ttwibonal.pc'");
    let described = folder.shell(&described);
    described.prints(&format!("Version: {}\n", env!("CARGO_PKG_VERSION")));
    let example = root().join("examples/handset.c");
    let built = folder.shell(&format!(
        "export PKG_CONFIG_PATH='{prefix}/lib/pkgconfig'
        flags=$(pkg-config --cflags --libs ttwibonal) || exit 2
        eval \"cc {} $flags -o handset\"",
        example.display()
    ));
    built.prints("");
    let cut = format!("'{prefix}/bin/ttw' pack changes1 changes2 --code AB1 --out .");
    let label = folder.shell(&format!("{cut} 2>/dev/null; ./handset AB1.pack 1"));
    label.prints(PRINTED);
}

#[test]
fn a_program_is_built_from_what_was_installed() {
    for prefix in ["usr", "a folder/with  spaces", "usr/"] {
        let folder = Folder::with_pair(&worked_pair());
        install(&folder, "", prefix).prints("");
        a_program_is_built(&folder, prefix);
        let whole = folder.0.join("abs olute").display().to_string();
        install(&folder, "", &whole).prints("");
        a_program_is_built(&folder, &whole);
    }
}

#[test]
fn a_stage_stands_in_front_of_the_prefix_and_in_no_file() {
    let folder = Folder::with_pair(&worked_pair());
    let stage = folder.0.join("a stage");
    let shown = stage.display().to_string();
    install(&folder, &shown, "/opt/t t").prints("");
    assert_eq!(folder.names("a stage"), ["opt"]);
    let below = ["bin", "include", "lib", "share"];
    assert_eq!(folder.names("a stage/opt/t t"), below);
    let described = folder.read("a stage/opt/t t/lib/pkgconfig/ttwibonal.pc");
    let described = String::from_utf8_lossy(&described).into_owned();
    assert!(described.starts_with("prefix=/opt/t t\n"), "{described}");
    assert!(!described.contains("stage"), "{described}");
    let told = "scripts/install: with DESTDIR the PREFIX has to begin with /";
    install(&folder, &shown, "usr").only_tells(2, told);
    assert!(folder.names("usr").is_empty());
}

/// What stands below a folder, and each mode.
fn modes(folder: &Folder) -> Vec<String> {
    let listed = folder.shell("find usr -printf '%m %P\\n' | sort -k 2");
    listed.out.lines().map(str::to_string).collect()
}

#[test]
fn modes_do_not_hang_on_the_mask() {
    for mask in ["077", "000", "022"] {
        let folder = Folder::new();
        let script = root().join("scripts/install");
        let line = format!("umask {mask}; '{}' usr \"$TTW\"", script.display());
        folder.shell(&line).prints("");
        let expected = [
            "755 ",
            "755 bin",
            "755 bin/ttw",
            "755 include",
            "644 include/ttwibonal.h",
            "644 include/ttwvan.h",
            "755 lib",
            "644 lib/libttwibonal.a",
            "644 lib/libttwvan.a",
            "755 lib/pkgconfig",
            "644 lib/pkgconfig/ttwibonal.pc",
            "644 lib/pkgconfig/ttwvan.pc",
            "755 share",
            "755 share/bash-completion",
            "755 share/bash-completion/completions",
            "644 share/bash-completion/completions/ttw",
            "755 share/man",
            "755 share/man/man1",
            "644 share/man/man1/ttw.1",
        ];
        assert_eq!(modes(&folder), expected, "{mask}");
    }
}

#[test]
fn man_page_and_completion_are_those_of_the_command() {
    let folder = Folder::new();
    install(&folder, "", "usr").prints("");
    for (file, option) in [
        ("usr/share/man/man1/ttw.1", "--man"),
        ("usr/share/bash-completion/completions/ttw", "--bash"),
    ] {
        let printed = folder.ttw(&["help", option]);
        assert!(!printed.out.is_empty());
        assert_eq!(folder.read(file), printed.out.as_bytes());
    }
    let mut broken = Command::new(root().join("scripts/install"));
    broken.args(["other", "/bin/false"]).env_remove("DESTDIR");
    let run = run(broken.current_dir(&folder.0));
    assert_eq!(run.status, Some(1), "a command that prints no page");
}

#[test]
fn a_folder_that_stands_keeps_its_mode() {
    let folder = Folder::new();
    let folders = ["usr/bin", "usr/lib/pkgconfig"].map(|name| folder.0.join(name));
    for path in &folders {
        fs::create_dir_all(path).expect("a folder");
        fs::set_permissions(path, fs::Permissions::from_mode(0o2775)).expect("a mode");
    }
    install(&folder, "", "usr").prints("");
    for path in &folders {
        let mode = fs::metadata(path).expect("the folder").mode();
        assert_eq!(mode & 0o7777, 0o2775, "{}", path.display());
    }
}

#[test]
fn make_hands_on_whatever_it_is_given() {
    let folder = Folder::new();
    symlink(root().join("Makefile"), folder.0.join("Makefile")).expect("a link");
    fs::create_dir(folder.0.join("scripts")).expect("a folder");
    let script = folder.put(
        "scripts/install",
        b"#!/bin/sh\nprintf '%s|%s|%d' \"$DESTDIR\" \"$1\" $#\n",
    );
    fs::set_permissions(script, fs::Permissions::from_mode(0o755)).expect("a program");
    let make = |line: &str| folder.shell(&line.replace("make", "make -s -o ttw install"));
    make("make").prints("|/usr/local|1");
    make("DESTDIR='s t' make").prints("s t|/usr/local|1");
    make("make DESTDIR='s t' PREFIX=\"it's a b\"").prints("s t|it's a b|1");
}

#[test]
fn the_handset_gets_its_library_and_no_command() {
    let folder = Folder::new();
    let mut install = Command::new(root().join("scripts/install"));
    run(install.args(["--arm", "handset"]).current_dir(&folder.0)).prints("");
    assert_eq!(folder.names("handset"), ["include", "lib"]);
    let copies = [
        ("include/ttwibonal.h", "include/ttwibonal.h"),
        ("include/ttwvan.h", "include/ttwvan.h"),
        ("lib/libttwvan.a", "target/staticlib/aarch64/libttwvan.a"),
        (
            "lib/libttwibonal.a",
            "target/staticlib/aarch64/libttwibonal.a",
        ),
    ];
    for (copy, of) in copies {
        let made = fs::read(root().join(of)).expect("a file");
        assert!(folder.read(&format!("handset/{copy}")) == made, "{copy}");
    }
    let described = folder.shell("grep '^prefix=' handset/lib/pkgconfig/ttwibonal.pc");
    described.prints(&format!("prefix={}/handset\n", folder.0.display()));
}

#[test]
fn no_prefix_is_wrong_usage() {
    let mut install = Command::new(root().join("scripts/install"));
    run(&mut install).only_tells(2, "usage: scripts/install [--arm] PREFIX [TTW]");
}
