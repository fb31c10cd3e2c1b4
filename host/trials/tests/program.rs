//! The programs `labels` and `guide`, run in folders of their own, against the second program's report.

use paper::make::{self, guide, Rng};
use std::fs;
use std::path::{Path, PathBuf};
use std::process::Command;
use trials::{agree, samples};

fn root() -> PathBuf {
    Path::new(env!("CARGO_MANIFEST_DIR")).join("../..")
}

/// A folder that goes away again.
struct Folder(PathBuf);

impl Folder {
    fn new(name: &str) -> Folder {
        let path = std::env::temp_dir().join(format!("ttw-{name}-{}", std::process::id()));
        fs::create_dir_all(&path).expect("a folder of its own");
        Folder(path)
    }

    fn put(&self, name: &str, bytes: Option<&[u8]>) {
        let path = self.0.join(name);
        match bytes {
            Some(bytes) => fs::write(path, bytes).expect("a file in it"),
            None => drop(fs::remove_file(path)),
        }
    }
}

impl Drop for Folder {
    fn drop(&mut self) {
        drop(fs::remove_dir_all(&self.0));
    }
}

/// What a program writes about these files, which has to be the second program's report.
fn report(program: &str, folder: &Folder, table: Option<&[u8]>, points: Option<&[u8]>) -> String {
    folder.put("changes1", table);
    folder.put("changes2", points);
    let run = Command::new(root().join("target/bin").join(program))
        .current_dir(&folder.0)
        .output()
        .expect("the program runs");
    assert!(run.status.success());
    assert_eq!(run.stdout, paper::report(table, points));
    String::from_utf8(run.stdout).expect("text")
}

#[test]
fn worked_absent_refused_and_long() {
    let folder = Folder::new("cases");
    let pair = make::worked_pair();
    let (table, points) = (Some(&pair.table[..]), Some(&pair.points[..]));
    let worked = report("labels", &folder, table, points);
    assert!(worked.starts_with("pair 7 4 2\nview 1 I\nATTIC FLAT\n110-114 QUARRY LANE\n"));
    assert!(worked.ends_with("view 2 D\nrefused 9 6\n"));
    assert_eq!(
        report("labels", &folder, None, points),
        "table refused 1 0\n"
    );
    assert_eq!(
        report("labels", &folder, table, None),
        "points refused 1 0\n"
    );
    assert_eq!(
        report("labels", &folder, table, table),
        "points refused 1 0\n"
    );
    assert_eq!(
        report("labels", &folder, Some(&[0; 169 * 2]), points),
        "table refused 2 1\n"
    );
    assert_eq!(
        report("labels", &folder, Some(&[b' '; 169 * 2]), points),
        "table refused 2 1\n"
    );
    assert_eq!(
        report("labels", &folder, Some(&[0; 169 * 301]), points),
        "table long\n"
    );
    assert_eq!(
        report("labels", &folder, table, Some(&[0; 168 * 301])),
        "points long\n"
    );
}

#[test]
fn the_samples_are_what_they_are_made_from() {
    let pair = samples::pair();
    assert!(fs::read(root().join("samples/changes1")).expect("changes1") == pair.table);
    assert!(fs::read(root().join("samples/changes2")).expect("changes2") == pair.points);
    let folder = Folder::new("samples");
    let labels = report("labels", &folder, Some(&pair.table), Some(&pair.points));
    assert!(
        labels.contains("\n110-114 QUARRY LANE\n"),
        "the range is kept"
    );
    assert!(
        labels.contains("\nFLAT 1\nROSE COTTAGE\nQUARRY LANE\n"),
        "FLAT 1 has its own line"
    );
    assert!(
        labels.contains("\n3 HARTWELL BAY\n"),
        "a number with no street"
    );
    let expected = fs::read_to_string(root().join("samples/labels.txt")).expect("labels.txt");
    assert!(
        labels == expected,
        "samples/labels.txt is what the program prints"
    );
}

#[test]
fn the_guides_printed_examples() {
    let pair = guide::pair();
    let data = root().join("crates/guide/data");
    assert!(fs::read(data.join("changes1")).expect("changes1") == pair.table);
    assert!(fs::read(data.join("changes2")).expect("changes2") == pair.points);
    let examples = guide::examples();
    let mut expected = format!(
        "pair {} {} {}\n",
        pair.table.len() / 169,
        pair.points.len() / 168,
        examples.len()
    );
    for (view, example) in (1..).zip(examples) {
        let label = example.label();
        let length = agree::label(&pair.table, &pair.points, view, 499);
        assert_eq!(length, label.len() as u64, "{}", example.table);
        expected += &format!("view {view} I\n{label}");
    }
    let folder = Folder::new("guide");
    let printed = report("guide", &folder, Some(&pair.table), Some(&pair.points));
    assert_eq!(printed, expected);
}

#[test]
fn random_and_damaged_pairs() {
    let folder = Folder::new("random");
    let mut rng = Rng::new(53);
    for _ in 0..150 {
        let pair = make::pair(&mut rng, 60);
        report("labels", &folder, Some(&pair.table), Some(&pair.points));
        let mut points = pair.points.clone();
        make::scratch(&mut rng, &mut points);
        report("labels", &folder, Some(&pair.table), Some(&points));
    }
}
