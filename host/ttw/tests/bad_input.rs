//! Bad input of every kind: a clear message, the right status, nothing lost.

mod support;

use paper::make::{damaged_packs, exact_pair, worked_pair, Pair, Rng, TableRow, View};
use std::ffi::OsStr;
use std::fs;
use std::os::unix::ffi::OsStrExt;
use std::path::Path;
use std::process::{Command, Stdio};
use std::time::{Duration, Instant};
use support::{is_installed, Folder, Run, NOT_WRITTEN, TTW};

fn worked() -> Folder {
    Folder::with_pair(&worked_pair())
}

#[test]
fn a_missing_file() {
    let why = "No such file or directory (os error 2)";
    let folder = worked();
    let told = format!("ttw: cannot read changes9: {why}");
    folder
        .ttw(&["check", "changes1", "changes9"])
        .only_tells(2, &told);
    folder
        .ttw(&["codes", "changes9", "changes2"])
        .only_tells(2, &told);
    folder
        .ttw(&["labels", "changes9", "changes2"])
        .only_tells(2, &told);
    let pack = ["pack", "changes9", "changes2", "--all", "--out", "packs"];
    folder.ttw(&pack).only_tells(2, &told);
    assert_eq!(folder.names("."), ["changes1", "changes2"]);
    let told = format!("ttw: cannot read a.pack: {why}");
    folder.ttw(&["show", "a.pack"]).only_tells(2, &told);
}

#[test]
fn a_folder_for_a_file() {
    let folder = worked();
    let told = "ttw: cannot read .: Is a directory (os error 21)";
    folder.ttw(&["check", ".", "changes2"]).only_tells(2, told);
    folder.ttw(&["show", "."]).only_tells(2, told);
}

#[test]
fn a_file_that_cannot_be_read() {
    let folder = worked();
    // Its first bytes belong to no one, so that not even root may read them.
    let told = "ttw: cannot read /proc/self/mem: Input/output error (os error 5)";
    folder
        .ttw(&["check", "changes1", "/proc/self/mem"])
        .only_tells(2, told);
    folder.ttw(&["show", "/proc/self/mem"]).only_tells(2, told);
}

/// Runs `ttw` as someone who may read and write only what anybody may; none
/// where this test may not become someone else.
fn as_nobody(folder: &Folder, arguments: &str) -> Option<Run> {
    let plain = folder.shell("test $(id -u) != 0").status == Some(0);
    if !plain && !is_installed("setpriv") {
        return None;
    }
    let nobody = "setpriv --reuid=65534 --regid=65534 --clear-groups";
    let become_nobody = if plain { "" } else { nobody };
    let line = format!("cp \"$TTW\" ttw; chmod 755 ttw; {become_nobody} ./ttw {arguments}");
    Some(folder.shell(&line))
}

#[test]
fn files_and_folders_of_someone_else() {
    let folder = worked();
    folder.put("AB1.pack", b"older");
    fs::create_dir(folder.0.join("packs")).expect("a folder");
    folder
        .shell("chmod 755 .; chmod 555 packs; chmod 000 AB1.pack")
        .prints("");
    if let Some(run) = as_nobody(&folder, "show AB1.pack") {
        let denied = "Permission denied (os error 13)";
        run.only_tells(2, &format!("ttw: cannot read AB1.pack: {denied}"));
        let pack = "pack changes1 changes2 --all --out packs";
        let run = as_nobody(&folder, pack).expect("as before");
        let told = format!("ttw: cannot write packs/AB1.pack: {denied}");
        run.only_tells(2, &format!("{told}\n{NOT_WRITTEN}"));
        assert!(folder.names("packs").is_empty());
    }
}

#[test]
fn empty_files() {
    let folder = worked();
    folder.put("empty", b"");
    let length = "the length is not that of 2 to 20,000 whole records (refusal 1)";
    let run = folder.ttw(&["check", "empty", "empty"]);
    run.only_tells(1, &format!("table: {length}\npoints: {length}"));
    let run = folder.ttw(&["labels", "changes1", "empty"]);
    run.only_tells(1, &format!("points: {length}"));
    let told = "pack: not a pack, or its end is damaged (refusal 11, step 1)";
    folder.ttw(&["show", "empty"]).only_tells(1, told);
}

#[test]
fn huge_files_are_refused_at_once_and_fill_no_memory() {
    let folder = worked();
    let huge = fs::File::create(folder.0.join("huge")).expect("a file");
    huge.set_len(1 << 40).expect("a file with holes");
    let length = "the length is not that of 2 to 20,000 whole records (refusal 1)";
    let line = "ulimit -v 1000000; exec \"$TTW\" check huge huge";
    folder
        .shell(line)
        .only_tells(1, &format!("table: {length}\npoints: {length}"));
    let line = "ulimit -v 1000000; exec \"$TTW\" show huge";
    folder
        .shell(line)
        .only_tells(2, "ttw: huge is too long for a pack");
    folder
        .ttw(&["check", "changes1", "/dev/zero"])
        .only_tells(1, &format!("points: {length}"));
}

#[test]
fn a_file_of_one_record_too_many() {
    let folder = worked();
    folder.put("long", &vec![b'0'; 20_001 * 169]);
    let told = "table: the length is not that of 2 to 20,000 whole records (refusal 1)";
    folder
        .ttw(&["check", "long", "changes2"])
        .only_tells(1, told);
}

#[test]
fn the_wrong_files() {
    let folder = Folder::with_pack(&worked_pair());
    let length = "the length is not that of 2 to 20,000 whole records (refusal 1)";
    let run = folder.ttw(&["check", "AB1.pack", "changes2"]);
    run.only_tells(1, &format!("table: {length}"));
    let told = "pack: not a pack, or its end is damaged (refusal 11, step 1)";
    folder.ttw(&["show", "changes1"]).only_tells(1, told);
}

const SWAPPED: &str =
    "the files look swapped: changes1 begins as a table file, changes2 as a point file";

#[test]
fn swapped_files_are_told_by_every_command() {
    let folder = worked();
    let length = "the length is not that of 2 to 20,000 whole records (refusal 1)";
    let told = format!("table: {length}\npoints: {length}\n{SWAPPED}");
    for (command, options) in [
        ("check", &[][..]),
        ("codes", &[]),
        ("labels", &[]),
        ("labels", &["--view", "1"]),
        ("pack", &["--all", "--out", "packs"]),
        ("pack", &["--code", "AB1", "--out", "packs"]),
    ] {
        let swapped = [&[command, "changes2", "changes1"], options].concat();
        folder.ttw(&swapped).only_tells(1, &told);
    }
    assert_eq!(folder.names("."), ["changes1", "changes2"]);
}

/// A header is known by itself, whatever stands behind it, and by nothing else.
#[test]
fn files_look_swapped_where_each_has_the_others_header() {
    let folder = worked();
    let pair = worked_pair();
    let swapped = |table: &[u8], points: &[u8]| {
        folder.put("changes1", table);
        folder.put("changes2", points);
        let run = folder.ttw(&["check", "changes2", "changes1"]);
        assert_eq!(run.status, Some(1));
        run.told.lines().any(|line| line == SWAPPED)
    };
    let (table, points) = (&pair.table[..], &pair.points[..]);
    assert!(swapped(table, points));
    assert!(swapped(&table[..table.len() - 1], points), "cut short");
    assert!(swapped(table, &points[..2 * 168]), "without its trailer");
    assert!(swapped(&[table, b"\n"].concat(), points), "a line end");
    // 168 records of 169 bytes are 169 records of 168: no length is wrong.
    let long: Vec<u8> = table.iter().copied().cycle().take(168 * 169).collect();
    assert!(swapped(&long, points));
    assert!(!swapped(&table[..2 * 169 - 1], points), "not two records");
    assert!(!swapped(table, b""));
    assert!(!swapped(points, points), "the point file twice");
    assert!(!swapped(table, table), "the table file twice");
    let mut other = points.to_vec();
    other[14] = b'X';
    assert!(!swapped(table, &other), "no header");
    other = points.to_vec();
    other[..14].fill(b' ');
    assert!(swapped(table, &other), "spaces for its identifier");
    other[13] = 0;
    assert!(!swapped(table, &other), "partly spaces");
}

/// The worked pair with bytes written over its files.
fn scratched(table: &[(usize, &[u8])], points: &[(usize, &[u8])]) -> Folder {
    let mut pair = worked_pair();
    for (file, changes) in [(&mut pair.table, table), (&mut pair.points, points)] {
        for (at, bytes) in changes {
            file[*at..at + bytes.len()].copy_from_slice(bytes);
        }
    }
    Folder::with_pair(&pair)
}

#[test]
fn each_refusal_of_a_file_names_file_and_record() {
    let check = ["check", "changes1", "changes2"];
    let header = scratched(&[(9, b"X")], &[]);
    header.ttw(&check).only_tells(
        1,
        "table: record 1 is not the header of such a file (refusal 2)",
    );
    let trailer = scratched(&[], &[(3 * 168 + 14, b"00000005")]);
    let told = "points: record 4, the last, is not a trailer with the right count (refusal 3)";
    trailer.ttw(&check).only_tells(1, told);
    let malformed = scratched(&[(2 * 169 + 1, b"X")], &[]);
    malformed
        .ttw(&check)
        .only_tells(1, "table: record 3 is malformed at byte 2 (refusal 4)");
    let sequence = scratched(&[], &[(2 * 168, b"20110801")]);
    let told = "points: record 3 is not above the record before it (refusal 5)";
    sequence.ttw(&check).only_tells(1, told);
    let follower = scratched(&[], &[(168 + 32, b"00000001")]);
    let told = "points: record 2 lacks its organisation record, or is a stray one (refusal 6)";
    follower.ttw(&check).only_tells(1, told);
}

#[test]
fn numbers_and_codes_that_do_not_exist() {
    let folder = worked();
    let ask =
        |options: &[&str]| folder.ttw(&[&["labels", "changes1", "changes2"], options].concat());
    let none = "there is none of that number (refusal 7)";
    ask(&["--view", "0"]).only_tells(1, &format!("view 0: {none}"));
    ask(&["--view", "3"]).only_tells(1, &format!("view 3: {none}"));
    ask(&["--code", "AB1", "--nth", "0"]).only_tells(1, &format!("AB1 number 0: {none}"));
    ask(&["--code", "AB1", "--nth", "2"]).only_tells(1, &format!("AB1 number 2: {none}"));
    let most = u64::MAX.to_string();
    ask(&["--view", &most]).only_tells(1, &format!("view {most}: {none}"));
    let no_code = "not an outward code, such as AB1 or EC1N in capitals (refusal 12)";
    ask(&["--code", "ab1"]).only_tells(1, &format!("code ab1: {no_code}"));
    ask(&["--code", ""]).only_tells(1, &format!("code : {no_code}"));
    ask(&["--code", "AB1 9ZZ", "--nth", "1"])
        .only_tells(1, &format!("AB1 9ZZ number 1: {no_code}"));
    let pack = [
        "pack", "changes1", "changes2", "--code", "ab1", "--out", "packs",
    ];
    let told = format!("code ab1: {no_code}\npacks written: 0, codes refused: 1");
    folder.ttw(&pack).only_tells(1, &told);
    let out = [
        "pack", "changes1", "changes2", "--code", "../x", "--out", "packs",
    ];
    let told = format!("code ../x: {no_code}\npacks written: 0, codes refused: 1");
    folder.ttw(&out).only_tells(1, &told);
    assert_eq!(folder.names("."), ["changes1", "changes2"]);
}

#[test]
fn point_0_of_a_pack() {
    let folder = Folder::with_pack(&worked_pair());
    for k in ["0", "2"] {
        let told = format!("point {k}: there is none of that number (refusal 7)");
        folder
            .ttw(&["show", "AB1.pack", "--nth", k])
            .only_tells(1, &told);
    }
}

#[test]
fn damaged_packs_name_the_step() {
    let folder = Folder::new();
    let words = [
        "not a pack, or its end is damaged",
        "the rows are damaged",
        "the points are damaged",
    ];
    let packs = damaged_packs();
    for step in 1..=3 {
        let damaged = packs.iter().find(|damaged| damaged.step == step as u64);
        folder.put("a.pack", &damaged.expect("a pack for each step").pack);
        let told = format!("pack: {} (refusal 11, step {step})", words[step - 1]);
        folder.ttw(&["show", "a.pack"]).only_tells(1, &told);
    }
}

const SECTORS_ALONE: &str = "--sectors stands alone, without --nth, --count and --suffix";

/// Wrong usage, and what is told about it.
const MISUSES: [(&[&str], &str); 26] = [
    (&[], "no command is given; see: ttw help"),
    (&["chekc"], "there is no command \"chekc\"; see: ttw help"),
    (&["help", "me"], "there is no help on \"me\"; see: ttw help"),
    (
        &["check"],
        "check takes files: 2, given: 0; see: ttw help check",
    ),
    (
        &["show", "a", "b"],
        "show takes files: 1, given: 2; see: ttw help show",
    ),
    (
        &["check", "--all", "a", "b"],
        "there is no option --all here",
    ),
    (
        &["labels", "a", "b", "--suffix"],
        "there is no option --suffix here",
    ),
    (&["show", "a", "--suffix=1"], "--suffix takes no value"),
    (&["show", "a", "--sectors=9"], "--sectors takes no value"),
    (&["show", "a", "--sectors", "--nth", "1"], SECTORS_ALONE),
    (&["show", "a", "--count", "1", "--sectors"], SECTORS_ALONE),
    (&["show", "a", "--suffix", "--sectors"], SECTORS_ALONE),
    (&["labels", "a", "b", "--nth", "1"], "--nth needs --code"),
    (
        &["labels", "a", "b", "--count", "3"],
        "--count needs --view or --nth, to count from",
    ),
    (
        &["show", "a", "--count", "3"],
        "--count needs --nth, to count from",
    ),
    (&["labels", "a", "b", "--view"], "--view needs a value"),
    (
        &["labels", "a", "b", "--view", "x"],
        "--view takes a whole number, not \"x\"",
    ),
    (
        &["labels", "a", "b", "--view", "-1"],
        "--view takes a whole number, not \"-1\"",
    ),
    (
        &["labels", "a", "b", "--view=1", "--view=2"],
        "--view is given twice",
    ),
    (
        &["labels", "a", "b", "--view", "1", "--code", "AB1"],
        "--view stands alone, without --code and --nth",
    ),
    (&["pack", "a", "b", "--all"], "pack needs --out FOLDER"),
    (
        &["pack", "a", "b", "--all", "--out", ""],
        "--out takes a name, not an empty one",
    ),
    (
        &["pack", "a", "b", "--all", "--out="],
        "--out takes a name, not an empty one",
    ),
    (
        &["pack", "a", "b", "--out", "c"],
        "pack needs either --code or --all",
    ),
    (
        &["pack", "a", "b", "--out", "c", "--all", "--code", "AB1"],
        "pack needs either --code or --all",
    ),
    (&["show", "a", "--help=1"], "--help takes no value"),
];

#[test]
fn wrong_usage() {
    let folder = worked();
    for (arguments, told) in MISUSES {
        folder.ttw(arguments).only_tells(2, &format!("ttw: {told}"));
    }
}

#[test]
fn files_whose_names_look_like_options() {
    let folder = worked();
    folder.put("--all", &worked_pair().table);
    let run = folder.ttw(&["check", "--", "--all", "changes2"]);
    run.prints("table: 7 records\npoints: 4 records, 2 views\n");
}

/// A pair with codes A1 to A9, the view of A5 without its building.
fn pair_with_one_bad_code() -> Pair {
    let views = (1..=9)
        .map(|n| View {
            outward: format!("A{n}"),
            locality: 1,
            building: if n == 5 { 7 } else { 0 },
            address_key: n,
            ..View::default()
        })
        .collect();
    Pair::new(vec![TableRow::locality(1, "HARTWELL BAY", "", "")], views)
}

#[test]
fn a_refused_code_does_not_stop_the_others_and_keeps_its_older_pack() {
    let folder = Folder::with_pair(&pair_with_one_bad_code());
    folder.put("A5.pack", b"older");
    let run = folder.ttw(&["pack", "changes1", "changes2", "--all", "--out", "."]);
    let reason =
        "the building name's key has no row in force in the table file (refusal 9, field 6)";
    let told = format!("code A5: view 5: {reason}\npacks written: 8, codes refused: 1");
    run.only_tells(1, &told);
    assert_eq!(folder.read("A5.pack"), b"older");
    assert_eq!(folder.names(".").len(), 2 + 9, "nothing else stays behind");
    folder
        .ttw(&["show", "A9.pack"])
        .prints("point 1\nHARTWELL BAY\nA9 9ZZ\n");
}

#[test]
fn a_pack_that_cannot_be_written_does_not_stop_the_others() {
    let folder = Folder::with_pair(&pair_with_one_bad_code());
    fs::create_dir(folder.0.join("A1.pack")).expect("a folder");
    fs::create_dir(folder.0.join("A8.pack")).expect("a folder");
    let run = folder.ttw(&["pack", "changes1", "changes2", "--all", "--out", "."]);
    let told: Vec<&str> = run.told.lines().collect();
    let why = "Is a directory (os error 21)";
    assert_eq!(told[0], format!("ttw: cannot write ./A1.pack: {why}"));
    assert!(told[1].starts_with("code A5: view 5: "), "{told:?}");
    assert_eq!(told[2], format!("ttw: cannot write ./A8.pack: {why}"));
    let counts = "packs written: 6, codes refused: 1, packs not written: 2";
    assert_eq!((told[3], told.len(), run.status), (counts, 4, Some(2)));
    assert_eq!(folder.names(".").len(), 2 + 8, "nothing else stays behind");
    for n in [2, 3, 4, 6, 7, 9] {
        assert!(folder.read(&format!("A{n}.pack")).len() > 61, "A{n}");
    }
}

#[test]
fn names_do_not_steer_the_terminal() {
    let folder = worked();
    let told = |arguments: &[&OsStr]| {
        let run = folder.ttw(arguments);
        assert_eq!(run.status, Some(2));
        run.told
    };
    let name = OsStr::from_bytes(b"a\x1b]0;b\x07\n\xff\xc2\x9b\xe2\x80\xae\\\xc3\xa9'\"");
    let safe = "a\\u{1b}]0;b\\u{7}\\n\\xff\\u{9b}\\u{202e}\\\\\u{e9}'\"";
    let none = "No such file or directory (os error 2)";
    let [show, check, pack] = ["show", "check", "pack"].map(OsStr::new);
    let [changes1, changes2] = ["changes1", "changes2"].map(OsStr::new);
    let read = format!("ttw: cannot read {safe}: {none}\n");
    assert_eq!(told(&[show, name]), read);
    assert_eq!(told(&[check, changes1, name]), read);
    let option = [OsStr::from_bytes(b"--"), name].join(OsStr::new(""));
    let unknown = format!("ttw: there is no option --{safe} here\n");
    assert_eq!(told(&[show, &option]), unknown.replace("\\xff", "\u{fffd}"));
    folder.put("file", b"");
    let below = Path::new("file").join(name);
    let arguments = ["--all", "--out"].map(OsStr::new);
    let arguments = [
        pack,
        changes1,
        changes2,
        arguments[0],
        arguments[1],
        below.as_os_str(),
    ];
    let last = format!("ttw: cannot make file/{safe}: Not a directory (os error 20)\n");
    assert!(told(&arguments).ends_with(&last));
    for word in [
        &["\u{1b}"][..],
        &["help", "\u{1b}"],
        &["show", "a", "--nth", "\u{1b}"],
    ] {
        let words: Vec<&OsStr> = word.iter().map(OsStr::new).collect();
        assert!(told(&words).contains("\\u{1b}"), "{word:?}");
    }
}

#[test]
fn a_message_that_cannot_be_told_leaves_the_status() {
    let unread = worked().shell("\"$TTW\" check nothing changes2 2>/dev/full");
    assert_eq!(unread.status, Some(2));
}

#[test]
fn output_that_nobody_reads() {
    // More than a pipe holds, so that the writer has to meet its closed end.
    let pair = exact_pair(&mut Rng::new(71), 300, 3_000);
    let folder = Folder::with_pair(&pair);
    let run = folder.shell("\"$TTW\" labels changes1 changes2 | head -n 1; echo ${PIPESTATUS[0]}");
    assert_eq!(run.told, "");
    assert!(run.out.ends_with("\n2\n"), "{run:?}");
}

#[test]
fn a_full_disk() {
    let folder = worked();
    fs::create_dir(folder.0.join("disk")).expect("a folder");
    // A disk of one page, filled but for the older pack.
    let line = "unshare --user --map-root-user --mount bash -c '
        mount -t tmpfs -o size=8k none disk || exit 77
        echo older >disk/AB1.pack
        head -c 4096 /dev/zero >disk/rest
        \"$TTW\" pack changes1 changes2 --all --out disk
        status=$?
        cat disk/AB1.pack
        ls -A disk
        exit $status'";
    let run = folder.shell(line);
    if run.status == Some(77) || run.told.contains("unshare") {
        return; // Not allowed here; a limit of a file's size stands in.
    }
    let why = "cannot write disk/AB1.pack: No space left on device (os error 28)";
    let told = format!("ttw: {why}\n{NOT_WRITTEN}\n");
    assert_eq!((run.status, run.told), (Some(2), told));
    assert_eq!(run.out, "older\nAB1.pack\nrest\n");
}

#[test]
fn a_folder_that_cannot_be_made() {
    let folder = worked();
    let run = folder.ttw(&[
        "pack",
        "changes1",
        "changes2",
        "--all",
        "--out",
        "changes1/packs",
    ]);
    let why = "cannot make changes1/packs: Not a directory (os error 20)";
    run.only_tells(
        2,
        &format!("packs written: 0, codes refused: 0\nttw: {why}"),
    );
}

/// A pair with a view in each of many codes, and with enough rows that a run
/// takes a while.
fn pair_of_many_codes() -> Pair {
    let codes = (b'A'..=b'H').flat_map(|letter| (10..90).map(move |n| (letter, n)));
    let views = codes
        .zip(1..)
        .map(|((letter, n), address_key)| View {
            outward: format!("{}{n}", char::from(letter)),
            locality: 1,
            address_key,
            ..View::default()
        })
        .collect();
    let rows = (1..3_000).map(|key| TableRow::locality(key, "HARTWELL BAY", "", ""));
    Pair::new(rows.collect(), views)
}

/// How many packs of the folder are no longer the older ones.
fn cut_so_far(folder: &Folder) -> usize {
    let names = folder.names("packs");
    let packs = names.iter().filter(|name| !name.starts_with('.'));
    packs
        .filter(|name| folder.read(&format!("packs/{name}")) != b"older")
        .count()
}

#[test]
fn an_interrupted_run_leaves_each_pack_older_or_whole() {
    let pair = pair_of_many_codes();
    let folder = Folder::with_pair(&pair);
    fs::create_dir(folder.0.join("packs")).expect("a folder");
    for view in &pair.views {
        folder.put(&format!("packs/{}.pack", view.outward), b"older");
    }
    let mut child = Command::new(TTW)
        .args(["pack", "changes1", "changes2", "--all", "--out", "packs"])
        .current_dir(&folder.0)
        .stderr(Stdio::null())
        .spawn()
        .expect("the command starts");
    let start = Instant::now();
    while cut_so_far(&folder) < 20 && start.elapsed() < Duration::from_secs(60) {}
    child.kill().expect("killed");
    assert!(!child.wait().expect("ended").success(), "it was at work");
    let cut = cut_so_far(&folder);
    assert!((20..pair.views.len()).contains(&cut), "{cut}");
    for view in &pair.views {
        let pack = folder.read(&format!("packs/{}.pack", view.outward));
        assert!(pack == b"older" || paper::open(&pack) == Ok(1));
    }
    let again = folder.ttw(&["pack", "changes1", "changes2", "--all", "--out", "packs"]);
    again.only_tells(0, "packs written: 640, codes refused: 0");
    assert_eq!(cut_so_far(&folder), pair.views.len());
}

#[test]
fn progress_is_for_a_terminal_alone() {
    let folder = Folder::with_pair(&pair_with_one_bad_code());
    let pack = "pack changes1 changes2 --all --out .";
    assert!(!folder
        .shell(&format!("\"$TTW\" {pack}"))
        .told
        .contains("of 9"));
    if !is_installed("script") {
        return; // There is no other terminal to try it on.
    }
    let on_terminal = folder.shell(&format!(
        "script -qec '\"$TTW\" {pack}' /dev/null </dev/null"
    ));
    assert_eq!(on_terminal.status, Some(1), "{on_terminal:?}");
    assert!(
        on_terminal.out.contains("\r\u{1b}[KA9 (9 of 9)\r\u{1b}[K"),
        "{on_terminal:?}"
    );
}
