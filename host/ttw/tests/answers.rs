//! What the command prints where all is well, and that it is what the second
//! program answers.

mod support;

use paper::make::{exact_pair, pair, worked_pair, Pair, Rng, TableRow, View};
use support::Folder;

/// The second program's pack.
fn plain_pack(pair: &Pair, code: &[u8]) -> Vec<u8> {
    let mut out = vec![0; pair.table.len() + pair.points.len()];
    let length = paper::build(&pair.table, &pair.points, code, &mut out).expect("a pack");
    out.truncate(length);
    out
}

fn plain_label(pair: &Pair, view: u64) -> String {
    let label = paper::label_of(&pair.table, &pair.points, view).expect("a label");
    String::from_utf8(label).expect("text")
}

#[test]
fn check_counts_records_and_views() {
    let folder = Folder::with_pair(&worked_pair());
    let run = folder.ttw(&["check", "changes1", "changes2"]);
    run.prints("table: 7 records\npoints: 4 records, 2 views\n");
    assert_eq!(run.told, "");
}

#[test]
fn codes_rise_and_have_live_views() {
    let view = |outward: &str, letter: u8, address_key: u32| View {
        outward: outward.to_string(),
        letter,
        address_key,
        ..View::default()
    };
    let views = vec![
        view("W1A", b'I', 1),
        view("AB1", b'C', 2),
        view("AB1", b'I', 3),
        view("EC1N", b'D', 4),
        view("B1", b'B', 5),
        view("AB10", b'I', 6),
    ];
    let folder = Folder::with_pair(&Pair::new(Vec::new(), views));
    let run = folder.ttw(&["codes", "changes1", "changes2"]);
    run.prints("AB1 2\nAB10 1\nW1A 1\n");
}

#[test]
fn a_single_label_is_printed_as_it_stands() {
    let pair = worked_pair();
    let folder = Folder::with_pair(&pair);
    let label = plain_label(&pair, 1);
    let files = ["labels", "changes1", "changes2"];
    let ask = |options: &[&str]| folder.ttw(&[&files[..], options].concat());
    ask(&["--view", "1"]).prints(&label);
    ask(&["--view=1"]).prints(&label);
    ask(&["--code", "AB1", "--nth", "1"]).prints(&label);
    ask(&["--code", "AB1 ", "--nth", "1"]).prints(&label);
    assert_eq!(ask(&["--view", "1"]).told, "");
}

#[test]
fn a_list_goes_on_after_a_refused_label() {
    let pair = worked_pair();
    let folder = Folder::with_pair(&pair);
    let run = folder.ttw(&["labels", "changes1", "changes2"]);
    let reason =
        "the building name's key has no row in force in the table file (refusal 9, field 6)";
    let label = plain_label(&pair, 1);
    let out = format!("view 1 I\n{label}view 2 D\nrefused: view 2: {reason}\n");
    assert_eq!((run.status, run.out), (Some(1), out));
    assert_eq!(run.told, "labels printed: 1, refused: 1\n");
    let live = folder.ttw(&["labels", "changes1", "changes2", "--code", "AB1"]);
    live.prints(&format!("AB1 number 1\n{label}"));
}

#[test]
fn every_label_of_random_pairs_is_the_second_programs() {
    let mut rng = Rng::new(61);
    let mut refused = 0;
    for _ in 0..25 {
        let pair = pair(&mut rng, 60);
        let folder = Folder::with_pair(&pair);
        let run = folder.ttw(&["labels", "changes1", "changes2"]);
        let mut lines = run.out.lines();
        for (number, view) in (1..).zip(&pair.views) {
            let heading = format!("view {number} {}", char::from(view.letter));
            assert_eq!(lines.next(), Some(heading.as_str()));
            match paper::label_of(&pair.table, &pair.points, number) {
                Ok(label) => {
                    let label = String::from_utf8(label).expect("text");
                    label
                        .lines()
                        .for_each(|line| assert_eq!(lines.next(), Some(line)));
                }
                Err(why) => {
                    refused += 1;
                    let line = lines.next().expect("a line");
                    let number = format!("(refusal {}, ", why.number);
                    assert!(
                        line.starts_with("refused: ") && line.contains(&number),
                        "{line}"
                    );
                }
            }
        }
        assert_eq!(lines.next(), None);
    }
    assert!(refused > 0);
}

/// A pair of so many views, of which the last is refused with 9.
fn pair_with_a_refused_view(views: u32) -> Pair {
    let rows = vec![TableRow::locality(1, "HARTWELL BAY", "", "")];
    let views = (1..=views)
        .map(|n| View {
            address_key: n,
            locality: 1,
            building: if n == views { 7 } else { 0 },
            ..View::default()
        })
        .collect();
    Pair::new(rows, views)
}

/// So many labels from a view on, one behind the other.
fn plain_run(pair: &Pair, first: u64, count: u64) -> String {
    let mut out = vec![0; 499 * count as usize];
    let run = paper::labels(&pair.table, &pair.points, first, count, &mut out);
    out.truncate(run.expect("accepted files").bytes);
    String::from_utf8(out).expect("text")
}

#[test]
fn runs_are_the_labels_in_turn() {
    let Pair {
        rows, mut views, ..
    } = pair_with_a_refused_view(100);
    views.pop();
    let pair = Pair::new(rows, views);
    let folder = Folder::with_pair(&pair);
    folder.put("a.pack", &plain_pack(&pair, b"AB1 "));
    let files = ["labels", "changes1", "changes2"];
    let by_view = folder.ttw(&[&files[..], &["--view", "3", "--count", "40"]].concat());
    by_view.prints(&plain_run(&pair, 3, 40));
    let by_code = ["--code", "AB1", "--nth", "3", "--count", "40"];
    let by_code = folder.ttw(&[&files[..], &by_code].concat());
    by_code.prints(&plain_run(&pair, 3, 40));
    let of_pack = folder.ttw(&["show", "a.pack", "--nth", "3", "--count", "40"]);
    of_pack.prints(&plain_run(&pair, 3, 40));
    let of_none = folder.ttw(&["show", "a.pack", "--nth", "3", "--count", "0"]);
    of_none.prints("");
}

#[test]
fn a_run_longer_than_its_room_goes_on_and_ends_at_a_refused_label() {
    let views = 18_000;
    let pair = pair_with_a_refused_view(views);
    let folder = Folder::with_pair(&pair);
    let files = ["labels", "changes1", "changes2", "--view"];
    let many = folder.ttw(&[&files[..], &["1", "--count", "1000000"]].concat());
    let expected = plain_run(&pair, 1, u64::from(views));
    assert!(expected.len() > 499 * 512, "{}", expected.len());
    assert!(many.out == expected);
    let told =
        "view 18000: the building name's key has no row in force in the table file (refusal 9, field 6)\n";
    assert_eq!((many.status, many.told.as_str()), (Some(1), told));
    let behind = folder.ttw(&[&files[..], &["18001", "--count", "2"]].concat());
    assert_eq!((behind.status, behind.out.as_str()), (Some(1), ""));
    assert!(behind.told.contains("(refusal 7)"), "{}", behind.told);
}

#[test]
fn packs_are_the_second_programs_and_show_their_labels() {
    let pair = exact_pair(&mut Rng::new(62), 300, 300);
    let folder = Folder::with_pair(&pair);
    let run = folder.ttw(&["pack", "changes1", "changes2", "--all", "--out", "a/b"]);
    run.only_tells(0, "packs written: 3, codes refused: 0");
    assert_eq!(folder.names("a/b"), ["AB1.pack", "AB10.pack", "B1A.pack"]);
    for (name, code) in [("AB1", b"AB1 "), ("AB10", b"AB10"), ("B1A", b"B1A ")] {
        let pack = folder.read(&format!("a/b/{name}.pack"));
        assert!(pack == plain_pack(&pair, code));
        let options = ["labels", "changes1", "changes2", "--code", name];
        let from_files = folder.ttw(&options).out;
        let from_pack = folder.ttw(&["show", &format!("a/b/{name}.pack")]).out;
        assert!(from_files.replace(&format!("{name} number "), "point ") == from_pack);
        assert!(from_pack.starts_with("point 1\n"));
    }
}

#[test]
fn a_pack_longer_than_the_first_room_is_whole() {
    let pair = exact_pair(&mut Rng::new(63), 4_000, 4_000);
    let folder = Folder::with_pack(&pair);
    let pack = folder.read("AB1.pack");
    assert!(pack.len() > 1 << 16, "{}", pack.len());
    assert!(pack == plain_pack(&pair, b"AB1 "));
}

#[test]
fn a_code_without_live_views_gives_the_pack_of_61_bytes() {
    let folder = Folder::with_pair(&worked_pair());
    let arguments = [
        "pack", "changes1", "changes2", "--code", "EC1N", "--out", ".",
    ];
    folder
        .ttw(&arguments)
        .only_tells(0, "packs written: 1, codes refused: 0");
    assert_eq!(folder.read("EC1N.pack").len(), 61);
    folder.ttw(&["show", "EC1N.pack"]).prints("");
}

#[test]
fn point_k_of_a_pack_is_printed_alone() {
    let pair = worked_pair();
    let folder = Folder::with_pair(&pair);
    folder.put("a.pack", &plain_pack(&pair, b"AB1 "));
    folder
        .ttw(&["show", "a.pack", "--nth", "1"])
        .prints(&plain_label(&pair, 1));
}

#[test]
fn help_and_version_are_everywhere() {
    let folder = Folder::new();
    let version = format!("ttw {}\n", env!("CARGO_PKG_VERSION"));
    folder.ttw(&["--version"]).prints(&version);
    let overview = folder.ttw(&["--help"]);
    folder.ttw(&["help"]).prints(&overview.out);
    for command in ["check", "codes", "labels", "pack", "show"] {
        let help = folder.ttw(&["help", command]);
        assert!(help.out.starts_with(&format!("ttw {command} ")), "{help:?}");
        folder.ttw(&[command, "--help"]).prints(&help.out);
        folder.ttw(&[command, "--version"]).prints(&version);
        assert!(overview.out.contains(&format!("ttw {command} ")));
    }
    for topic in ["files", "refusals", "status"] {
        assert_eq!(folder.ttw(&["help", topic]).status, Some(0));
    }
}
