//! `ttw unspace`: archived files are written anew without spaces, what is no such
//! file is left alone, and every file as it was stays.

mod support;

use paper::make::{
    archived, long_pair, samples, space_points, space_table, worked_pair, End, Pair, Rng,
};
use std::ffi::OsStr;
use std::fs;
use std::os::unix::ffi::OsStrExt;
use std::os::unix::fs::symlink;
use support::faults::Faults;
use support::{Folder, Run, PRINTING_LABELS};

/// The worked pair with spaces in these ends of each file.
fn spaced(table: &[End], points: &[End]) -> Pair {
    let mut pair = worked_pair();
    space_table(&mut pair.table, table);
    space_points(&mut pair.points, points);
    pair
}

/// The worked pair with spaces in all four identifiers, in a folder.
fn archive() -> Folder {
    let both = [End::Header, End::Trailer];
    Folder::with_pair(&spaced(&both, &both))
}

/// What is told of a file that is rewritten wholly.
const BOTH: &str = "\
changes1: table file, header and trailer rewritten: changes1.new
changes2: point file, header and trailer rewritten: changes2.new
";

/// Fails unless the run ended so, printed this and told that.
#[track_caller]
fn ended(run: &Run, status: i32, out: &str, told: &str) {
    let ended = (run.status, run.out.as_str(), run.told.as_str());
    assert_eq!(ended, (Some(status), out, told));
}

#[test]
fn archived_files_are_accepted_before_and_after_they_are_rewritten() {
    let folder = archive();
    let proper = Folder::with_pair(&worked_pair());
    for arguments in PRINTING_LABELS.iter().filter(|line| !line.contains("pack")) {
        let line = format!("\"$TTW\" {arguments}");
        let run = folder.shell(&line);
        assert!(!run.out.is_empty(), "{run:?}");
        assert_eq!(run, proper.shell(&line));
    }
    let accepted = "table: 7 records\npoints: 4 records, 2 views\n";
    folder
        .ttw(&["check", "changes1", "changes2"])
        .prints(accepted);
    let before = [folder.read("changes1"), folder.read("changes2")];
    folder
        .ttw(&["unspace", "changes1", "changes2"])
        .prints(BOTH);
    let pair = worked_pair();
    assert!(folder.read("changes1.new") == pair.table);
    assert!(folder.read("changes2.new") == pair.points);
    assert!([folder.read("changes1"), folder.read("changes2")] == before);
    let names = ["changes1", "changes1.new", "changes2", "changes2.new"];
    assert_eq!(folder.names("."), names);
    folder
        .ttw(&["check", "changes1.new", "changes2.new"])
        .prints(accepted);
}

#[test]
fn which_identifiers_were_spaces_is_told() {
    let proper = worked_pair();
    let choices = [
        (&[][..], "nothing to rewrite"),
        (&[End::Header], "header rewritten"),
        (&[End::Trailer], "trailer rewritten"),
        (&[End::Header, End::Trailer], "header and trailer rewritten"),
    ];
    for (table, of_table) in choices {
        for (points, of_points) in choices {
            let folder = Folder::with_pair(&spaced(table, points));
            // In any order: what a file is, its header says.
            let run = folder.ttw(&["unspace", "changes2", "changes1"]);
            run.prints(&format!(
                "changes2: point file, {of_points}: changes2.new\n\
                changes1: table file, {of_table}: changes1.new\n"
            ));
            assert!(folder.read("changes1.new") == proper.table);
            assert!(folder.read("changes2.new") == proper.points);
        }
    }
}

#[test]
fn what_is_not_two_or_more_whole_records_is_passed_through_as_it_came() {
    let folder = Folder::new();
    let archived = spaced(&[End::Header], &[End::Trailer]);
    for length in [22, 168, 169, 170, 337, 339, 1_000] {
        folder.put("a", &archived.table[..length]);
        let said = "table file, not two or more whole records, as it came";
        folder
            .ttw(&["unspace", "a"])
            .prints(&format!("a: {said}: a.new\n"));
        assert!(folder.read("a.new") == archived.table[..length]);
    }
    let lines: Vec<Vec<u8>> = archived.table.chunks(169).map(<[u8]>::to_vec).collect();
    let with_line_ends = lines.join(&b"\r\n"[..]);
    folder.put("a", &with_line_ends);
    assert_eq!(folder.ttw(&["unspace", "a"]).status, Some(0));
    assert!(folder.read("a.new") == with_line_ends);
}

/// Files longer than the library accepts, which are cut as they are and rewritten. A
/// part has header and trailer of its file.
#[test]
fn files_of_any_length_go_through_and_are_cut_as_before() {
    let rng = &mut Rng::new(6);
    let proper = long_pair(rng, 20_500, 21_000, 30, false);
    let before = archived(rng, &proper);
    let folder = Folder::with_pair(&before);
    let extract = |files: &str, parts: &str| {
        folder.shell(&format!("\"$TTW\" extract {files} --all --out {parts}"))
    };
    let archived = extract("changes1 changes2", "archived");
    assert_eq!(archived.status, Some(0), "{archived:?}");
    let run = folder.ttw(&["unspace", "changes1", "changes2"]);
    assert_eq!(run.status, Some(0), "{run:?}");
    assert!(folder.read("changes1.new") == proper.table);
    assert!(folder.read("changes2.new") == proper.points);
    let cut = extract("changes1.new changes2.new", "parts");
    assert_eq!(archived, cut);
    let run = folder.shell("\"$TTW\" unspace archived/*/changes?");
    assert_eq!(run.status, Some(0), "{run:?}");
    let files = "archived/*/changes?.new";
    let rename = format!("for file in {files}; do mv $file ${{file%.new}}; done");
    folder
        .shell(&format!("{rename}; diff -r archived parts"))
        .prints("");
    folder.put("changes1", &proper.table);
    folder.put("changes2", &proper.points);
    assert_eq!(extract("changes1 changes2", "others"), cut);
    folder.shell("diff -r parts others").prints("");
}

#[test]
fn any_other_file_is_told_and_left_alone_and_the_others_go_on() {
    let folder = archive();
    let set = samples::main_set();
    let mut addresses = set.files[6].clone();
    addresses[..7].fill(b' ');
    folder.put("addresses", &addresses);
    folder.put("empty", b"");
    folder.put("spaces", &[b' '; 2 * 169]);
    let mut other = worked_pair().table;
    other[16] = b'2';
    folder.put("other", &other);
    let names = ["addresses", "empty", "spaces", "other"];
    let files = [&["unspace", "changes1"], &names[..], &["changes2"]].concat();
    let told: String = names
        .iter()
        .map(|name| format!("{name}: neither a table file nor a point file, left alone\n"))
        .collect();
    ended(&folder.ttw(&files), 1, BOTH, &told);
    let new = |name: &&str| folder.0.join(format!("{name}.new")).exists();
    assert!(!names.iter().any(new));
}

#[test]
fn a_file_that_cannot_be_read_or_written_is_told_and_skipped() {
    let folder = archive();
    let missing = "No such file or directory (os error 2)";
    let files = ["unspace", "changes9", "changes1", ".", "changes2"];
    let told = format!(
        "ttw: cannot read changes9: {missing}\nttw: cannot read .: it is not a plain file\n"
    );
    ended(&folder.ttw(&files), 2, BOTH, &told);
    assert!(!folder.0.join("changes9.new").exists());
    // A folder, a link and a pipe are not replaced; the other file is written.
    let (of_table, of_points) = BOTH.split_once('\n').expect("two lines");
    let make: [(&str, &dyn Fn()); 3] = [
        ("a folder", &|| {
            fs::create_dir(folder.0.join("changes1.new")).expect("a folder")
        }),
        ("a link", &|| {
            symlink("changes2", folder.0.join("changes1.new")).expect("a link")
        }),
        ("a pipe", &|| folder.shell("mkfifo changes1.new").prints("")),
    ];
    for (what, make) in make {
        folder.shell("rm -rf changes1.new changes2.new").prints("");
        make();
        let told = "ttw: cannot write changes1.new: it is not a plain file\n";
        let run = folder.ttw(&["unspace", "changes1", "changes2"]);
        ended(&run, 2, of_points, told);
        assert!(
            folder.read("changes2.new") == worked_pair().points,
            "{what}"
        );
    }
    assert!(of_table.starts_with("changes1: "));
}

/// What is refused and what could not be read: the status is that of the latter.
#[test]
fn the_status_is_the_worst_of_all_files() {
    let folder = archive();
    folder.put("empty", b"");
    for files in [["empty", "changes9"], ["changes9", "empty"]] {
        let run = folder.ttw(&[&["unspace"], &files[..]].concat());
        assert_eq!(run.status, Some(2));
    }
    assert_eq!(folder.ttw(&["unspace", "empty"]).status, Some(1));
}

#[test]
fn it_takes_a_file_and_no_option() {
    let folder = archive();
    let told = "ttw: unspace takes one file or more; see: ttw help unspace";
    folder.ttw(&["unspace"]).only_tells(2, told);
    let told = "ttw: there is no option --out here";
    folder
        .ttw(&["unspace", "changes1", "--out", "a"])
        .only_tells(2, told);
    assert_eq!(folder.names("."), ["changes1", "changes2"]);
}

#[test]
fn a_file_may_have_any_name_and_stand_anywhere() {
    let folder = archive();
    let name = OsStr::from_bytes(b"a\xff b");
    fs::create_dir(folder.0.join("below")).expect("a folder");
    fs::rename(folder.0.join("changes1"), folder.0.join("below").join(name)).expect("moved");
    let path = folder.0.join("below").join(name);
    let run = folder.ttw(&[OsStr::new("unspace"), path.as_os_str()]);
    assert_eq!(run.status, Some(0), "{run:?}");
    assert!(run.out.ends_with("/below/a\\xff b.new\n"), "{run:?}");
    let new = folder
        .0
        .join("below")
        .join(OsStr::from_bytes(b"a\xff b.new"));
    assert!(fs::read(new).expect("a file") == worked_pair().table);
}

#[test]
fn a_new_file_reaches_the_disk_whole_or_the_older_one_stays() {
    let folder = archive();
    folder.put("changes1.new", b"older");
    let faults = Faults::new(&folder);
    let full = [("FAULTS_FAIL", "write 1 1 28"), ("FAULTS_FILE", ".part")];
    let run = faults.ttw(&full, &["unspace", "changes1"]).run;
    let told = "ttw: cannot write changes1.new: No space left on device (os error 28)";
    run.only_tells(2, told);
    assert_eq!(folder.read("changes1.new"), b"older");
    assert!(!folder.names(".").iter().any(|name| name.ends_with(".part")));
    let seen = faults.ttw(&[], &["unspace", "changes1"]);
    let [part] = seen.parts()[..] else {
        panic!("{:?}", seen.calls)
    };
    let order = [
        format!("sync {part}"),
        format!("rename {part} changes1.new"),
    ];
    let calls = seen.calls.iter().filter(|call| order.contains(call));
    assert!(calls.eq(&order), "{:?}", seen.calls);
    assert!(folder.read("changes1.new") == worked_pair().table);
}

#[test]
fn rewriting_a_new_file_gives_the_same() {
    let folder = archive();
    let run = folder.shell("\"$TTW\" unspace changes1 && \"$TTW\" unspace changes1.new");
    let said = "changes1.new: table file, nothing to rewrite: changes1.new.new\n";
    assert!(run.out.ends_with(said), "{run:?}");
    assert!(folder.read("changes1.new.new") == worked_pair().table);
}
