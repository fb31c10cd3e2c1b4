//! Labels that go into a file, whole or not at all, and packs that come on
//! standard input.

mod support;

use paper::make::worked_pair;
use std::ffi::OsStr;
use std::fs;
use std::os::unix::ffi::OsStrExt;
use std::os::unix::fs::{symlink, MetadataExt, PermissionsExt};
use support::faults::{Faults, Seen};
use support::{is_emulated, Folder, Run, PRINTING_LABELS};

/// The worked pair beside the pack of its one code. View 2 is refused with 9.
fn desk() -> Folder {
    Folder::with_pack(&worked_pair())
}

const SHOW: [&str; 4] = ["show", "AB1.pack", "--out", "labels"];
const NAMES: [&str; 4] = ["AB1.pack", "changes1", "changes2", "labels"];

#[test]
fn a_file_holds_what_would_be_printed() {
    let folder = desk();
    for arguments in PRINTING_LABELS {
        let printed = folder.shell(&format!("\"$TTW\" {arguments}"));
        assert!(!printed.out.is_empty(), "{arguments} prints");
        for output in ["", ">&-", ">/dev/full"] {
            folder.put("labels", b"older");
            let line = format!("\"$TTW\" {arguments} --out labels {output}");
            let written = folder.shell(&line);
            assert_eq!(written.status, printed.status, "{line}");
            assert_eq!((written.out, &written.told), (String::new(), &printed.told));
            assert_eq!(folder.read("labels"), printed.out.as_bytes(), "{line}");
        }
        let standard = folder.shell(&format!("\"$TTW\" {arguments} --out -"));
        assert_eq!(standard, printed);
    }
    assert_eq!(folder.names("."), NAMES);
}

#[test]
fn a_file_may_have_any_name() {
    let folder = desk();
    let name = OsStr::from_bytes(b"a\xff b");
    let mut arguments = SHOW.map(OsStr::new);
    arguments[3] = name;
    assert_eq!(folder.ttw(&arguments).status, Some(0));
    assert!(folder.0.join(name).is_file());
    fs::create_dir(folder.0.join("below")).expect("a folder");
    let path = folder.0.join("below/labels");
    arguments[3] = path.as_os_str();
    assert_eq!(folder.ttw(&arguments).status, Some(0));
    assert_eq!(folder.names("below"), ["labels"]);
}

#[test]
fn a_file_reaches_the_disk_as_a_pack_does() {
    let folder = desk();
    folder.put("labels", b"older");
    let mode = fs::Permissions::from_mode(0o640);
    fs::set_permissions(folder.0.join("labels"), mode).expect("a mode");
    let seen = Faults::new(&folder).ttw(&[], &SHOW);
    assert_eq!(seen.run.status, Some(0));
    let [part] = seen.parts()[..] else {
        panic!("{:?}", seen.calls)
    };
    assert!(part.starts_with(".labels.") && part.ends_with(".part"));
    let here = folder.0.file_name().expect("a name").to_string_lossy();
    let order = [
        format!("create {part} exclusive 640"),
        format!("sync {part}"),
        format!("rename {part} labels"),
        format!("sync {here}"),
    ];
    let made = seen.calls.iter().filter(|call| !call.starts_with("owner "));
    assert!(made.eq(&order), "{:?}", seen.calls);
    let written = fs::metadata(folder.0.join("labels")).expect("labels");
    assert_eq!(written.mode() & 0o7777, 0o640);
}

/// Fails unless the run told this and left the older file alone.
#[track_caller]
fn older_stays(folder: &Folder, run: &Run, status: i32, told: &str) {
    run.only_tells(status, told);
    assert_eq!(folder.read("labels"), b"older");
    let left = folder.names(".");
    assert!(!left.iter().any(|name| name.ends_with(".part")), "{left:?}");
}

#[test]
fn labels_that_a_refusal_ends_are_not_written() {
    let folder = desk();
    folder.put("labels", b"older");
    let key = "the building name's key has no row in force in the table file (refusal 9, field 6)";
    let none = "there is none of that number (refusal 7)";
    let told = [
        ("labels changes1 changes2 --view 2", "view 2", key),
        ("labels changes1 changes2 --view 1 --count 2", "view 2", key),
        (
            "labels changes1 changes2 --code AB1 --nth 1 --count 2",
            "AB1 number 2",
            none,
        ),
        ("show AB1.pack --nth 2", "point 2", none),
        ("show AB1.pack --nth 1 --count 40", "point 2", none),
        ("show AB1.pack --nth 1 --count 9 --suffix", "point 2", none),
    ];
    for (arguments, subject, why) in told {
        let run = folder.shell(&format!("\"$TTW\" {arguments} --out labels"));
        older_stays(&folder, &run, 1, &format!("{subject}: {why}"));
    }
    let damaged = folder.ttw(&["show", "changes1", "--out", "labels"]);
    let why = "pack: not a pack, or its end is damaged (refusal 11, step 1)";
    older_stays(&folder, &damaged, 1, why);
}

#[test]
fn a_full_disk_leaves_the_older_file() {
    let folder = desk();
    folder.put("labels", b"older");
    let faults = Faults::new(&folder);
    let here = folder.0.file_name().expect("a name").to_string_lossy();
    let at = |call: &str, file: &str, error: &str| -> Seen {
        let fail = format!("{call} 1 1 {error}");
        faults.ttw(&[("FAULTS_FAIL", &fail), ("FAULTS_FILE", file)], &SHOW)
    };
    let full = "ttw: cannot write labels: No space left on device (os error 28)";
    let broken = "ttw: cannot write labels: Input/output error (os error 5)";
    for (call, file, error, told) in [
        ("open", ".part", "28", full),
        ("write", ".part", "28", full),
        ("fsync", ".part", "28", full),
        ("fsync", ".part", "5", broken),
        ("rename", "labels", "5", broken),
    ] {
        let seen = at(call, file, error);
        older_stays(&folder, &seen.run, 2, told);
        assert_eq!(seen.parts().len(), 1, "{call}: {:?}", seen.calls);
    }
    // The folder did not reach the disk: the labels may stand or not, and are told.
    at("fsync", &here, "5").run.only_tells(2, broken);
    let limited = "ulimit -f 0; exec \"$TTW\" show AB1.pack --out limited";
    let told = "ttw: cannot write limited: File too large (os error 27)";
    folder.shell(limited).only_tells(2, told);
    assert!(!folder.0.join("limited").exists());
}

#[test]
fn no_part_stays_where_memory_ends_behind_it() {
    let folder = desk();
    folder.put("labels", b"older");
    let settings = [("FAULTS_FAIL", "memory 1 1 12")];
    let seen = Faults::new(&folder).ttw(&settings, &SHOW);
    older_stays(&folder, &seen.run, 2, "ttw: no memory is left");
    assert_eq!(seen.parts().len(), 1, "{:?}", seen.calls);
}

#[test]
fn a_folder_that_is_not_there_is_not_made() {
    let folder = desk();
    let none = "No such file or directory (os error 2)";
    for name in ["nowhere/labels", "nowhere/.."] {
        let run = folder.ttw(&["show", "AB1.pack", "--out", name]);
        run.only_tells(2, &format!("ttw: cannot write {name}: {none}"));
    }
    let run = folder.ttw(&["show", "AB1.pack", "--out", "changes1/labels"]);
    let why = "Not a directory (os error 20)";
    run.only_tells(2, &format!("ttw: cannot write changes1/labels: {why}"));
    assert_eq!(folder.names("."), NAMES[..3]);
}

#[test]
fn nothing_but_a_plain_file_is_replaced() {
    let folder = desk();
    folder.put("victim", b"someone's");
    symlink("victim", folder.0.join("link")).expect("a link");
    symlink("nothing", folder.0.join("loose")).expect("a link");
    folder.shell("mkdir folder; mkfifo pipe").prints("");
    let before = folder.names(".");
    for name in [
        "link",
        "loose",
        "pipe",
        "folder",
        "folder/",
        "new/",
        ".",
        "..",
        "/",
        "/dev/null",
    ] {
        let run = folder.ttw(&["show", "AB1.pack", "--out", name]);
        let told = format!("ttw: cannot write {name}: it is not a plain file");
        run.only_tells(2, &told);
    }
    assert_eq!(folder.names("."), before);
    assert_eq!(folder.read("victim"), b"someone's");
}

#[test]
fn a_pack_comes_on_standard_input() {
    let folder = desk();
    for options in ["", "--nth 1", "--nth 1 --count 1", "--suffix", "--sectors"] {
        let shown = folder.shell(&format!("\"$TTW\" show AB1.pack {options}"));
        for line in [
            format!("\"$TTW\" show - {options} <AB1.pack"),
            format!("cat AB1.pack | \"$TTW\" show {options} -- -"),
            format!("(head -c 50; sleep 0.1; cat) <AB1.pack | \"$TTW\" show - {options}"),
        ] {
            assert_eq!(folder.shell(&line), shown, "{line}");
        }
    }
    let both = folder.shell("\"$TTW\" show - --out labels <AB1.pack");
    assert_eq!(both.status, Some(0), "{both:?}");
    // A file of that name has a folder in front of it.
    let shown = folder.ttw(&["show", "AB1.pack"]);
    let named = folder.shell("cp AB1.pack ./-; \"$TTW\" show ./- </dev/null");
    assert_eq!(named, shown);
}

#[test]
fn standard_input_that_is_no_pack_or_cannot_be_read() {
    let folder = desk();
    let show = |input: &str| folder.shell(&format!("{input} \"$TTW\" show -"));
    let closed = "ttw: cannot read standard input: Bad file descriptor (os error 9)";
    show("0>written").only_tells(2, closed);
    // Where it is closed, an emulator has the program itself open in its place.
    if !is_emulated() {
        show("<&-").only_tells(2, closed);
    }
    let why = "Is a directory (os error 21)";
    show("<.").only_tells(2, &format!("ttw: cannot read standard input: {why}"));
    let long = "ttw: standard input is too long for a pack";
    show("</dev/zero").only_tells(2, long);
    let damaged = "pack: not a pack, or its end is damaged (refusal 11, step 1)";
    show("</dev/null").only_tells(1, damaged);
    show("<changes1").only_tells(1, damaged);
    // Whoever writes the pack ends in the middle of it.
    show("head -c 100 AB1.pack |").only_tells(1, damaged);
    show("true |").only_tells(1, damaged);
}

#[test]
fn changes_files_do_not_come_on_standard_input() {
    let folder = desk();
    let run = folder.shell("\"$TTW\" check - changes2 <changes1");
    run.only_tells(
        2,
        "ttw: cannot read -: No such file or directory (os error 2)",
    );
}
