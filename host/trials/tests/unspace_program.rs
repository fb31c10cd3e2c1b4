//! The program `unspace`, run in folders of their own: what it prints, what it writes, and that it leaves the files alone.

use paper::make::{archived, long_pair, pair, worked_pair, Pair, Rng};
use std::collections::BTreeMap;
use std::fs;
use std::os::unix::fs::symlink;
use std::path::{Path, PathBuf};
use std::process::Command;
use trials::c::{printed, Folder};

/// A file's name, its bytes, and how the second program rewrites it.
type Given<'a> = (&'static str, Option<&'a [u8]>, fn(&mut [u8]) -> u64);

/// Runs the program over these files, which have to stay, and fails unless what it prints and writes is what the second
/// program rewrites; a file that is absent is said and skipped, and nothing else is left behind.
fn run(name: &str, table: Option<&[u8]>, points: Option<&[u8]>) -> String {
    let folder = Folder::new(name);
    let mut expected = BTreeMap::new();
    let mut said = String::new();
    let files: [Given; 2] = [
        ("changes1", table, paper::unspace_table),
        ("changes2", points, paper::unspace_points),
    ];
    for (name, file, unspace) in files {
        let Some(file) = file else {
            said += &format!("{name} absent\n");
            continue;
        };
        folder.file(name, file);
        let mut new = file.to_vec();
        said += &format!("{name} rewritten {}\n", unspace(&mut new));
        expected.insert(name.to_string(), file.to_vec());
        expected.insert(format!("{name}.new"), new);
    }
    let out = run_in(&folder);
    assert_eq!(out, said);
    assert!(files_in(&folder.0) == expected, "other files");
    out
}

/// What the program prints in a folder.
fn run_in(folder: &Folder) -> String {
    let program = Path::new(env!("CARGO_MANIFEST_DIR")).join("../../target/bin/unspace");
    printed(Command::new(program).current_dir(&folder.0))
}

/// The files of a folder by their names.
fn files_in(folder: &Path) -> BTreeMap<String, Vec<u8>> {
    let entries = fs::read_dir(folder).expect("a folder");
    let file = |path: &Path| {
        let name = path.file_name().expect("a name").to_string_lossy();
        (name.into_owned(), fs::read(path).expect("a file"))
    };
    entries
        .map(|entry| file(&entry.expect("an entry").path()))
        .collect()
}

#[test]
fn archived_absent_and_unwhole_files() {
    let rng = &mut Rng::new(3);
    let Pair { table, points, .. } = archived(rng, &worked_pair());
    run("both", Some(&table), Some(&points));
    assert!(run("no-table", None, Some(&points)).starts_with("changes1 absent\n"));
    assert!(run("no-points", Some(&table), None).ends_with("changes2 absent\n"));
    assert_eq!(
        run("none", None, None),
        "changes1 absent\nchanges2 absent\n"
    );
    for length in [0, 1, 167, 168, 169, 335, 337, 339, 506, 508] {
        let spaces = vec![b' '; length];
        let out = run("short", Some(&spaces), Some(&spaces));
        assert_eq!(out, "changes1 rewritten 0\nchanges2 rewritten 0\n");
    }
    let (two_rows, two_points) = ([b' '; 2 * 169], [b' '; 2 * 168]);
    let out = run("two", Some(&two_rows), Some(&two_points));
    assert_eq!(out, "changes1 rewritten 2\nchanges2 rewritten 2\n");
}

#[test]
fn random_pairs_archived_and_as_they_are() {
    for seed in 0..40 {
        let rng = &mut Rng::new(seed);
        let made = pair(rng, 40);
        let before = archived(rng, &made);
        run("archived", Some(&before.table), Some(&before.points));
        run("made", Some(&made.table), Some(&made.points));
    }
}

#[test]
fn files_that_are_too_long_for_the_library() {
    let rng = &mut Rng::new(4);
    let long = long_pair(rng, 21_000, 21_000, 40, false);
    let before = archived(rng, &long);
    run("long", Some(&before.table), Some(&before.points));
}

/// A new file of an earlier run is replaced.
#[test]
fn a_second_run_writes_the_same() {
    let folder = Folder::new("again");
    let proper = worked_pair();
    let before = archived(&mut Rng::new(5), &proper);
    folder.file("changes1", &before.table);
    folder.file("changes2", &before.points);
    folder.file("changes1.new", b"something else that is longer");
    let first = run_in(&folder);
    let files = files_in(&folder.0);
    assert!(files["changes1.new"] == proper.table && files["changes2.new"] == proper.points);
    let second = run_in(&folder);
    assert_eq!((first, files), (second, files_in(&folder.0)));
}

/// The worked pair as an archive may have it, in a folder; `prepare` then puts something in the way of its table file, by the
/// path of that. The program has to say that the table file failed, and to rewrite the point file all the same.
fn failing(name: &str, prepare: impl Fn(&Path)) -> (Folder, Pair) {
    let folder = Folder::new(name);
    let before = archived(&mut Rng::new(6), &worked_pair());
    folder.file("changes1", &before.table);
    folder.file("changes2", &before.points);
    prepare(&folder.0.join("changes1"));
    let mut points = before.points.clone();
    let said = format!(
        "changes1 failed\nchanges2 rewritten {}\n",
        paper::unspace_points(&mut points)
    );
    assert_eq!(run_in(&folder), said, "{name}");
    assert_eq!(bytes_of(&folder, "changes2"), before.points, "{name}");
    assert_eq!(bytes_of(&folder, "changes2.new"), points, "{name}");
    (folder, before)
}

fn bytes_of(folder: &Folder, name: &str) -> Vec<u8> {
    fs::read(folder.0.join(name)).expect("a file")
}

fn names_in(folder: &Folder) -> Vec<String> {
    let entries = fs::read_dir(&folder.0).expect("a folder");
    let name = |entry: fs::DirEntry| entry.file_name().to_string_lossy().into_owned();
    let mut names: Vec<String> = entries.map(|e| name(e.expect("an entry"))).collect();
    names.sort();
    names
}

fn beside(path: &Path, end: &str) -> PathBuf {
    path.with_file_name(format!("changes1{end}"))
}

/// What has the name under which a file is made is left alone: a file of a run that was killed, and a link, which may lead to
/// the archive itself.
#[test]
fn what_has_the_name_already_is_left_alone() {
    let stood = ["changes1", "changes1.part", "changes2", "changes2.new"];
    let (folder, before) = failing("standing", |archive| {
        fs::write(beside(archive, ".part"), b"half").expect("a file");
    });
    assert_eq!(bytes_of(&folder, "changes1"), before.table);
    assert_eq!(bytes_of(&folder, "changes1.part"), b"half");
    assert_eq!(names_in(&folder), stood);

    let (folder, before) = failing("symbolic", |archive| {
        symlink("changes1", beside(archive, ".part")).expect("a link");
    });
    assert_eq!(bytes_of(&folder, "changes1"), before.table);
    let link = fs::read_link(folder.0.join("changes1.part")).expect("a link");
    assert_eq!(link, Path::new("changes1"));
    assert_eq!(names_in(&folder), stood);

    let (folder, before) = failing("hard", |archive| {
        fs::hard_link(archive, beside(archive, ".part")).expect("a link");
    });
    assert_eq!(bytes_of(&folder, "changes1"), before.table);
    assert_eq!(bytes_of(&folder, "changes1.part"), before.table);
    assert_eq!(names_in(&folder), stood);

    let (folder, before) = failing("dangling", |archive| {
        symlink("nowhere", beside(archive, ".part")).expect("a link");
    });
    assert_eq!(bytes_of(&folder, "changes1"), before.table);
    assert_eq!(names_in(&folder), stood);
}

/// A folder cannot be read, and cannot be replaced by a file; what was made is taken away again.
#[test]
fn folders_in_the_way() {
    let (folder, _) = failing("folder", |archive| {
        fs::remove_file(archive).expect("a file that goes");
        fs::create_dir(archive).expect("a folder");
    });
    assert!(folder.0.join("changes1").is_dir());
    assert_eq!(names_in(&folder), ["changes1", "changes2", "changes2.new"]);

    let (folder, before) = failing("new-folder", |archive| {
        fs::create_dir(beside(archive, ".new")).expect("a folder");
    });
    assert_eq!(bytes_of(&folder, "changes1"), before.table);
    assert!(folder.0.join("changes1.new").is_dir());
    let left = ["changes1", "changes1.new", "changes2", "changes2.new"];
    assert_eq!(names_in(&folder), left);
}
