//! Limits: of stack, threads, memory and a file's size. Each is a message and
//! status 2, never a signal, and leaves no part behind; or it does not matter.

mod support;

use paper::make::{exact_pair, set_of_pair, worked_pair, Rng};
use std::fs;
use support::faults::Faults;
use support::{is_emulated, Folder, Run, NOT_WRITTEN};

/// Many codes and labels, so that the work is shared among threads.
fn desk() -> Folder {
    Folder::with_pair(&exact_pair(&mut Rng::new(64), 300, 300))
}

const LABELS: [&str; 3] = ["labels", "changes1", "changes2"];
const CUT: [&str; 6] = ["pack", "changes1", "changes2", "--all", "--out", "packs"];

/// Runs both commands under a line of shell, and compares with runs without.
fn same_under(folder: &Folder, line: &str) {
    let usual = folder.ttw(&LABELS);
    let limited = folder.shell(&format!("{line}; exec \"$TTW\" {}", LABELS.join(" ")));
    assert_eq!(limited, usual, "{line}");
    let cut = folder.shell(&format!("{line}; exec \"$TTW\" {}", CUT.join(" ")));
    cut.only_tells(0, "packs written: 3, codes refused: 0");
}

#[test]
fn a_threads_stack_hangs_on_no_setting() {
    let folder = desk();
    same_under(&folder, "export RUST_MIN_STACK=1");
    same_under(&folder, "export RUST_MIN_STACK=4000000000000");
    // An emulator needs a stack of its own.
    if !is_emulated() {
        same_under(&folder, "ulimit -s 64");
        same_under(&folder, "ulimit -s 64; export RUST_MIN_STACK=1");
    }
}

#[test]
fn one_thread_is_enough() {
    let folder = desk();
    let faults = Faults::new(&folder);
    // Error 11: the system gives no more threads for now.
    let settings = [("FAULTS_FAIL", "thread 2 1000000 11")];
    assert_eq!(faults.ttw(&settings, &LABELS).run, folder.ttw(&LABELS));
    let cut = faults.ttw(&settings, &CUT).run;
    cut.only_tells(0, "packs written: 3, codes refused: 0");
}

#[test]
fn no_stack_at_all_is_told() {
    let folder = desk();
    let settings = [("FAULTS_FAIL", "thread 1 1000000 11")];
    let run = Faults::new(&folder).ttw(&settings, &LABELS).run;
    let why = "Resource temporarily unavailable (os error 11)";
    run.only_tells(2, &format!("ttw: there is no stack to work on: {why}"));
}

/// Fails unless nothing stands in the folder of packs but packs that open and
/// the older one.
fn packs_are_whole(folder: &Folder) {
    for name in folder.names("packs") {
        let pack = folder.read(&format!("packs/{name}"));
        assert!(name.ends_with(".pack"), "{name}");
        assert!(pack == b"older" || paper::open(&pack).is_ok(), "{name}");
    }
}

/// How many runs were told that there is no memory, with more of it from run to
/// run until there is enough.
fn told_of_no_memory(folder: &Folder, faults: &Faults, command: &[&str]) -> u32 {
    let mut told = 0;
    loop {
        let most = (told * 2_003 + 1).to_string();
        let seen = faults.ttw(&[("FAULTS_MEMORY", &most)], command);
        packs_are_whole(folder);
        if !seen.calls.contains(&"no memory".to_string()) {
            let done = seen.run.status.is_some_and(|status| status < 2);
            assert!(done, "{command:?}: {:?}", seen.run);
            return told;
        }
        seen.run.only_tells(2, "ttw: no memory is left");
        told += 1;
    }
}

#[test]
fn memory_of_any_length_is_a_message_or_enough() {
    let folder = Folder::with_pair(&worked_pair());
    fs::create_dir(folder.0.join("packs")).expect("a folder");
    folder.put("packs/AB1.pack", b"older");
    folder.put_set(&set_of_pair(&worked_pair()).files);
    let faults = Faults::new(&folder);
    let commands = [
        &["check", "changes1", "changes2"][..],
        &["main", "check", "set"],
        &["codes", "changes1", "changes2"],
        &["unspace", "changes1", "changes2"],
        &LABELS,
        &CUT,
        &["show", "packs/AB1.pack"],
        &["help"],
    ];
    for command in commands {
        let told = told_of_no_memory(&folder, &faults, command);
        assert!(told > 10, "{command:?}: {told}");
    }
}

#[test]
fn no_part_stays_where_memory_ends_behind_it() {
    let folder = Folder::with_pair(&worked_pair());
    // Rust's library takes memory for a path of this length.
    let long = format!("packs/{0}/{0}/{0}", "long".repeat(40));
    let cut = [&CUT[..5], &[&long]].concat();
    let settings = [("FAULTS_FAIL", "memory 1 1 12")];
    let seen = Faults::new(&folder).ttw(&settings, &cut);
    seen.run.only_tells(2, "ttw: no memory is left");
    assert_eq!(seen.parts().len(), 1, "{:?}", seen.calls);
    assert!(folder.names(&long).is_empty());
    folder
        .ttw(&cut)
        .only_tells(0, "packs written: 1, codes refused: 0");
    assert_eq!(folder.names(&long), ["AB1.pack"]);
}

/// A run with so many KiB of address space.
fn within(folder: &Folder, kib: u32, arguments: &[&str]) -> Run {
    let arguments = arguments.join(" ");
    folder.shell(&format!("ulimit -v {kib}; exec \"$TTW\" {arguments}"))
}

/// Fails unless the run came to its end, or told that memory or stack is short.
fn told_or_done(run: &Run, what: &str) -> bool {
    let told = run.told.starts_with("ttw: no memory is left\n")
        || run.told.starts_with("ttw: there is no stack to work on: ");
    let done = run.status.is_some_and(|status| status < 2);
    assert!(done || run.status == Some(2) && told, "{what}: {run:?}");
    done
}

/// An emulator takes address space of its own; there the tests above stand in.
#[test]
fn an_address_space_of_any_length_is_a_message_or_enough() {
    if is_emulated() {
        return;
    }
    let folder = desk();
    let lengths = (1..2_000).map(|step| step * 16);
    let starts = |kib: &u32| within(&folder, *kib, &["help"]).status == Some(2);
    let least = lengths.into_iter().find(starts);
    let least = least.expect("a length at which it starts");
    // In small steps while Rust's library begins, then in larger ones.
    let (small, large) = (least..least + 256, least + 256..least + 6_000);
    for kib in small.step_by(4) {
        told_or_done(&within(&folder, kib, &["help"]), &kib.to_string());
    }
    let mut done = 0;
    for kib in large.step_by(52) {
        for command in [&LABELS[..], &CUT] {
            let run = within(&folder, kib, command);
            done += u32::from(told_or_done(&run, &kib.to_string()));
            packs_are_whole(&folder);
        }
    }
    assert!((20..200).contains(&done), "{done}");
}

#[test]
fn a_limit_of_a_files_size_is_told() {
    let folder = Folder::with_pair(&worked_pair());
    fs::create_dir(folder.0.join("packs")).expect("a folder");
    folder.put("packs/AB1.pack", b"older");
    let why = "File too large (os error 27)";
    let cut = folder.shell(&format!("ulimit -f 0; exec \"$TTW\" {}", CUT.join(" ")));
    let told = format!("ttw: cannot write packs/AB1.pack: {why}\n{NOT_WRITTEN}");
    cut.only_tells(2, &told);
    assert_eq!(folder.names("packs"), ["AB1.pack"]);
    assert_eq!(folder.read("packs/AB1.pack"), b"older");
    let labels = LABELS.join(" ");
    let printed = folder.shell(&format!("ulimit -f 0; exec \"$TTW\" {labels} >labels"));
    printed.only_tells(2, &format!("ttw: cannot print: {why}"));
}
