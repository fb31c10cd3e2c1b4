//! How a pack gets to the disk: under a name that nobody can guess, created and
//! never opened, synced with its folder, and gone where it fails.

mod support;

use paper::make::worked_pair;
use std::fs;
use std::os::unix::fs::{chown, symlink, MetadataExt, PermissionsExt};
use std::path::PathBuf;
use support::faults::{Faults, Seen};
use support::{Folder, NOT_WRITTEN};

const CUT: [&str; 7] = [
    "pack", "changes1", "changes2", "--code", "AB1", "--out", "packs",
];

/// The worked pair beside an older pack.
fn desk() -> Folder {
    let folder = Folder::with_pair(&worked_pair());
    fs::create_dir(folder.0.join("packs")).expect("a folder");
    folder.put("packs/AB1.pack", b"older");
    folder
}

/// Fails unless the run cut the pack and nothing else stands in its folder.
#[track_caller]
fn cut_alone(folder: &Folder, seen: &Seen) {
    seen.run.only_tells(0, "packs written: 1, codes refused: 0");
    assert_eq!(folder.names("packs"), ["AB1.pack"]);
    assert_eq!(folder.read("packs/AB1.pack").len(), 171);
}

/// Fails unless the run told this and left the older pack alone.
#[track_caller]
fn older_stays(folder: &Folder, seen: &Seen, why: &str) {
    let told = format!("ttw: cannot write packs/AB1.pack: {why}\n{NOT_WRITTEN}");
    seen.run.only_tells(2, &told);
    assert_eq!(folder.names("packs"), ["AB1.pack"]);
    assert_eq!(folder.read("packs/AB1.pack"), b"older");
}

#[test]
fn a_pack_is_created_exclusively_synced_renamed_and_its_folder_synced() {
    let folder = desk();
    let seen = Faults::new(&folder).ttw(&[], &CUT);
    cut_alone(&folder, &seen);
    let [part] = seen.parts()[..] else {
        panic!("{:?}", seen.calls)
    };
    let order = [
        format!("create {part} exclusive"),
        format!("sync {part}"),
        format!("rename {part} AB1.pack"),
        "sync packs".to_string(),
    ];
    let made = seen.calls.iter().filter(|call| !call.starts_with("owner "));
    let made: Vec<&String> = made.collect();
    assert_eq!(made.len(), order.len(), "{made:?}");
    for (made, expected) in made.iter().zip(&order) {
        assert!(made.starts_with(expected), "{made}, not {expected}");
    }
}

#[test]
fn a_folder_that_is_made_is_synced_into_the_one_above_it() {
    let folder = Folder::with_pair(&worked_pair());
    let arguments = [&CUT[..6], &["a/b/c"]].concat();
    let seen = Faults::new(&folder).ttw(&[], &arguments);
    seen.run.only_tells(0, "packs written: 1, codes refused: 0");
    let here = folder.0.file_name().expect("a name").to_string_lossy();
    let synced = seen
        .calls
        .iter()
        .filter_map(|call| call.strip_prefix("sync "));
    let synced: Vec<&str> = synced.filter(|name| !name.ends_with(".part")).collect();
    assert_eq!(synced, [here.as_ref(), "a", "b", "c"]);
}

#[test]
fn two_runs_of_one_process_number_never_share_a_part() {
    let folder = desk();
    let faults = Faults::new(&folder);
    let runs: Vec<Seen> = (0..4)
        .map(|_| faults.ttw(&[("FAULTS_PID", "4711")], &CUT))
        .collect();
    let mut names: Vec<&str> = runs.iter().flat_map(Seen::parts).collect();
    names.sort_unstable();
    names.dedup();
    assert_eq!(names.len(), 4, "{names:?}");
    let digits = |name: &&str| {
        let part = name.strip_prefix(".AB1.pack.")?.strip_suffix(".part")?;
        Some(part.len() >= 16 && part.bytes().all(|byte| byte.is_ascii_hexdigit()))
    };
    assert!(
        names.iter().all(|name| digits(name) == Some(true)),
        "{names:?}"
    );
}

#[test]
fn a_link_in_the_place_of_a_part_is_not_followed() {
    let folder = desk();
    folder.put("packs/victim", b"someone's");
    let seen = Faults::new(&folder).ttw(&[("FAULTS_PLACE", "link 3")], &CUT);
    seen.run.only_tells(0, "packs written: 1, codes refused: 0");
    assert_eq!(folder.read("packs/victim"), b"someone's");
    assert_eq!(folder.read("packs/AB1.pack").len(), 171);
    // The three links that were met are another's, and stay.
    assert_eq!(folder.names("packs").len(), 2 + 3);
    assert_eq!(seen.parts().len(), 4, "{:?}", seen.calls);
}

#[test]
fn a_fifo_in_the_place_of_a_part_does_not_hang() {
    let folder = desk();
    let seen = Faults::new(&folder).ttw(&[("FAULTS_PLACE", "fifo 1")], &CUT);
    seen.run.only_tells(0, "packs written: 1, codes refused: 0");
    assert_eq!(folder.read("packs/AB1.pack").len(), 171);
    assert_eq!(seen.parts().len(), 2, "{:?}", seen.calls);
}

#[test]
fn someone_who_takes_every_name_ends_the_trying() {
    let folder = desk();
    let settings = [("FAULTS_FAIL", "open 1 1000 17"), ("FAULTS_FILE", ".part")];
    let seen = Faults::new(&folder).ttw(&settings, &CUT);
    older_stays(&folder, &seen, "File exists (os error 17)");
    assert!((2..100).contains(&seen.parts().len()), "{:?}", seen.calls);
}

#[test]
fn a_part_that_does_not_reach_the_disk_is_no_pack() {
    let folder = desk();
    let faults = Faults::new(&folder);
    let at = |call: &str, file: &str| {
        let fail = format!("{call} 1 1 5");
        faults.ttw(&[("FAULTS_FAIL", &fail), ("FAULTS_FILE", file)], &CUT)
    };
    let why = "Input/output error (os error 5)";
    older_stays(&folder, &at("fsync", ".part"), why);
    older_stays(&folder, &at("rename", "AB1.pack"), why);
    older_stays(&folder, &at("open", "packs"), why);
}

#[test]
fn a_folder_that_does_not_reach_the_disk_is_told() {
    let folder = desk();
    let faults = Faults::new(&folder);
    let failing = |error: &str| {
        let fail = format!("fsync 1 1 {error}");
        faults.ttw(&[("FAULTS_FAIL", &fail), ("FAULTS_FILE", "packs")], &CUT)
    };
    let why = "cannot write packs/AB1.pack: Input/output error (os error 5)";
    let told = format!("ttw: {why}\n{NOT_WRITTEN}");
    failing("5").run.only_tells(2, &told);
    assert_eq!(folder.names("packs"), ["AB1.pack"]);
    // Error 22: this file system has no way to sync a folder.
    cut_alone(&folder, &failing("22"));
}

#[test]
fn a_link_under_the_packs_own_name_is_replaced_and_not_followed() {
    let folder = desk();
    folder.put("victim", b"someone's");
    let pack = folder.0.join("packs/AB1.pack");
    fs::remove_file(&pack).expect("removed");
    symlink("../victim", &pack).expect("a link");
    folder
        .ttw(&CUT)
        .only_tells(0, "packs written: 1, codes refused: 0");
    assert_eq!(folder.read("victim"), b"someone's");
    assert!(fs::symlink_metadata(&pack).expect("a pack").is_file());
}

/// The mode of the pack.
fn mode(folder: &Folder) -> u32 {
    let pack = fs::metadata(folder.0.join("packs/AB1.pack")).expect("a pack");
    pack.mode() & 0o7777
}

#[test]
fn a_replaced_pack_keeps_its_mode() {
    let folder = desk();
    let faults = Faults::new(&folder);
    for kept in [0o600, 0o640, 0o444, 0o664, 0o666] {
        let pack: PathBuf = folder.0.join("packs/AB1.pack");
        fs::set_permissions(&pack, fs::Permissions::from_mode(kept)).expect("a mode");
        let seen = faults.ttw(&[], &CUT);
        cut_alone(&folder, &seen);
        assert_eq!(mode(&folder), kept);
        // Nobody may read the part who may not read the pack.
        let created = format!("exclusive {kept:o}");
        assert!(seen.calls[0].ends_with(&created), "{:?}", seen.calls);
    }
}

#[test]
fn a_new_pack_has_the_mode_that_the_mask_leaves() {
    let folder = Folder::with_pair(&worked_pair());
    let run = folder.shell(&format!("umask 027; \"$TTW\" {}", CUT.join(" ")));
    run.only_tells(0, "packs written: 1, codes refused: 0");
    assert_eq!(mode(&folder), 0o640);
}

#[test]
fn a_replaced_pack_keeps_its_owner_where_it_may_be_given() {
    let folder = desk();
    let faults = Faults::new(&folder);
    let pack = folder.0.join("packs/AB1.pack");
    // Root may; where this test may not, the owner that there is will do.
    let _ = chown(&pack, Some(65_534), Some(65_533));
    let older = fs::metadata(&pack).expect("the older pack");
    let (owner, group) = (older.uid(), older.gid());
    let seen = faults.ttw(&[], &CUT);
    cut_alone(&folder, &seen);
    let newer = fs::metadata(&pack).expect("the newer pack");
    assert_eq!((newer.uid(), newer.gid()), (owner, group));
    let part = seen.parts()[0];
    let given = format!("owner {part} {owner} {group}");
    assert!(seen.calls.contains(&given), "{:?}", seen.calls);
    // Error 1: not permitted, and then the group alone.
    let seen = faults.ttw(&[("FAULTS_FAIL", "fchown 1 1 1")], &CUT);
    cut_alone(&folder, &seen);
    let given = format!("owner {} -1 {group}", seen.parts()[0]);
    assert!(seen.calls.contains(&given), "{:?}", seen.calls);
    let seen = faults.ttw(&[("FAULTS_FAIL", "fchown 1 2 1")], &CUT);
    cut_alone(&folder, &seen);
}

#[test]
fn a_link_gives_neither_mode_nor_owner() {
    let folder = desk();
    let victim = folder.put("victim", b"someone's");
    fs::set_permissions(&victim, fs::Permissions::from_mode(0o400)).expect("a mode");
    let pack = folder.0.join("packs/AB1.pack");
    fs::remove_file(&pack).expect("removed");
    symlink("../victim", &pack).expect("a link");
    let seen = Faults::new(&folder).ttw(&[], &CUT);
    cut_alone(&folder, &seen);
    assert_ne!(mode(&folder), 0o400);
    assert!(seen.calls[0].ends_with("exclusive 666"), "{:?}", seen.calls);
    assert!(!seen.calls.iter().any(|call| call.starts_with("owner")));
}
