//! `ttw csv` and `ttw labels --csv`: rows and labels are the second program's, and
//! other programs read the same fields.

mod support;

use paper::make::samples::{main_set, pair};
use paper::make::{
    csv_file, csv_rows, damaged_csv, full_csv_row, whole_view, worked_pair, CsvRow, Pair, Rng,
    TableRow, View,
};
use paper::Refusal;
use support::{is_installed, Folder};

/// The row of the worked pair's first view.
const WORKED: &str = "AB1 9ZZ,HARTWELL BAY,,,QUARRY LANE,,,110-114,ATTIC FLAT,,,,,S, ,1A\r\n";

/// Why the worked pair's second view has none.
const REFUSED: &str =
    "view 2: the building name's key has no row in force in the table file (refusal 9, field 6)";

/// The second program's rows of so many views, and how many are refused.
fn plain_rows(views: u64, row: impl Fn(u64, &mut [u8]) -> Result<usize, Refusal>) -> (String, u64) {
    let (mut rows, mut refused) = (Vec::new(), 0);
    for view in 1..=views {
        let mut out = [0; 499];
        match row(view, &mut out) {
            Ok(length) => rows.extend(&out[..length]),
            Err(_) => refused += 1,
        }
    }
    (String::from_utf8(rows).expect("text"), refused)
}

fn plain_rows_of(pair: &Pair) -> (String, u64) {
    plain_rows(pair.views.len() as u64, |view, out| {
        paper::csv::row(&pair.table, &pair.points, view, out)
    })
}

#[test]
fn rows_are_written_and_a_refused_view_is_told() {
    let folder = Folder::with_pair(&worked_pair());
    let run = folder.ttw(&["csv", "changes1", "changes2"]);
    assert_eq!((run.status, run.out.as_str()), (Some(1), WORKED));
    let told = format!("{REFUSED}\nrows written: 1, refused: 1");
    assert_eq!(run.told, format!("{told}\n"));
    let written = folder.ttw(&["csv", "changes1", "changes2", "--out", "rows"]);
    written.only_tells(1, &told);
    assert_eq!(folder.read("rows"), WORKED.as_bytes());
    folder
        .ttw(&["labels", "--csv", "rows", "--nth", "1"])
        .prints("ATTIC FLAT\n110-114 QUARRY LANE\nHARTWELL BAY\nAB1 9ZZ\n");
}

/// Each with its number and its refusal; the others go on.
#[test]
fn views_that_no_row_can_carry_are_left_out() {
    let (mut rows, view) = whole_view();
    let of_town = |address_key, locality| View {
        address_key,
        locality,
        ..view.clone()
    };
    rows.push(TableRow::locality(8, "HOLT, NEAR", "", ""));
    rows.push(TableRow::locality(9, "\"HOLT\"", "", ""));
    let views = vec![
        of_town(1, 8),
        of_town(2, 1),
        of_town(3, 9),
        of_town(4, 0),
        of_town(5, 1),
    ];
    let pair = Pair::new(rows, views);
    let folder = Folder::with_pair(&pair);
    let run = folder.ttw(&["csv", "changes1", "changes2", "--out", "rows"]);
    let uncarried =
        "a field is longer than CSV PAF allows, or has a comma or a double quote (refusal 15)";
    let missing = "the locality's key is zero or has no row in force in the table file \
        (refusal 9, field 1)";
    let told = format!(
        "view 1: {uncarried}\nview 3: {uncarried}\nview 4: {missing}\nrows written: 2, refused: 3"
    );
    run.only_tells(1, &told);
    let (rows, refused) = plain_rows_of(&pair);
    assert_eq!((folder.read("rows"), refused), (rows.into_bytes(), 3));
}

#[test]
fn the_rows_of_the_samples_are_the_second_programs() {
    let folder = Folder::with_pair(&pair());
    let run = folder.ttw(&["csv", "changes1", "changes2"]);
    let (rows, refused) = plain_rows_of(&pair());
    assert_eq!((run.status, run.out), (Some(1), rows));
    let counts = format!("rows written: {}, refused: {refused}\n", 41 - refused);
    assert!(run.told.ends_with(&counts) && refused == 5, "{}", run.told);
    let set = main_set();
    folder.put_set(&set.files);
    let run = folder.ttw(&["main", "csv", "set"]);
    let views = set.addresses.len() as u64;
    let (rows, refused) = plain_rows(views, |view, out| {
        paper::csv::main_row(set.set(), view, out)
    });
    assert_eq!((run.status, run.out.as_str()), (Some(1), rows.as_str()));
    let counts = format!("rows written: {}, refused: {refused}\n", views - refused);
    assert!(run.told.ends_with(&counts) && refused > 5, "{}", run.told);
    let written = folder.ttw(&["main", "csv", "set", "--out", "rows"]);
    assert_eq!((written.status, written.told), (Some(1), run.told));
    assert_eq!(folder.read("rows"), rows.as_bytes());
}

/// More rows than a page has room for, and a refused view on each page.
#[test]
fn the_rows_of_the_largest_files() {
    let (rows, view) = whole_view();
    let views = (1..=19_998).map(|n| View {
        address_key: n,
        building_number: n % 10_000,
        locality: u32::from(n % 15_000 != 7),
        ..view.clone()
    });
    let pair = Pair::new(rows, views.collect());
    let folder = Folder::with_pair(&pair);
    let run = folder.ttw(&["csv", "changes1", "changes2", "--out", "rows"]);
    assert_eq!(
        run.told.lines().last(),
        Some("rows written: 19996, refused: 2")
    );
    let mut rows = vec![0; 499 * pair.views.len()];
    let mut bytes = 0;
    for first in [1, 8, 15_008] {
        let Pair { table, points, .. } = &pair;
        let run = paper::csv::rows(table, points, first, u64::MAX, &mut rows[bytes..]);
        bytes += run.expect("files").bytes;
    }
    assert!(bytes > 1 << 20, "{bytes}");
    assert!(folder.read("rows") == rows[..bytes]);
}

#[test]
fn refused_files_and_a_full_disk_leave_an_older_file() {
    let folder = Folder::with_pair(&worked_pair());
    folder.put("rows", b"older");
    let cut = folder.shell("\"$TTW\" csv changes1 <(head -c 5 changes2) --out rows");
    let told = "points: the length is not that of 2 to 20,000 whole records (refusal 1)";
    cut.only_tells(1, told);
    assert_eq!(folder.read("rows"), b"older");
    let full = folder.shell("\"$TTW\" csv changes1 changes2 >/dev/full");
    assert_eq!(full.status, Some(2), "{full:?}");
    let link = folder.shell("ln -s rows link; \"$TTW\" csv changes1 changes2 --out link");
    assert_eq!(link.status, Some(2), "{link:?}");
    assert_eq!(folder.names("."), ["changes1", "changes2", "link", "rows"]);
}

/// What the second program lists, as `ttw` puts it.
fn listed(csv: &[u8]) -> String {
    let mut listed = String::new();
    for row in 1..=paper::csv::check(csv).expect("rows") as u64 {
        let mut out = [0; 499];
        let said = match paper::csv::label(csv, row, &mut out) {
            Ok(length) => String::from_utf8_lossy(&out[..length]).into_owned(),
            Err(why) => {
                let reason = match why.detail {
                    1 => "a sub building without building name or number",
                    _ => "a dependent thoroughfare without a thoroughfare",
                };
                format!(
                    "refused: row {row}: {reason} (refusal 8, rule {})\n",
                    why.detail
                )
            }
        };
        listed += &format!("row {row}\n{said}");
    }
    listed
}

#[test]
fn labels_of_rows_are_the_second_programs() {
    let mut rng = Rng::new(73);
    let folder = Folder::new();
    let mut refused = 0;
    for _ in 0..25 {
        let count = rng.below(40);
        let csv = csv_file(&csv_rows(&mut rng, count));
        folder.put("rows", &csv);
        let run = folder.ttw(&["labels", "--csv", "rows"]);
        let expected = listed(&csv);
        assert_eq!(run.out, expected);
        let some = expected.matches("refused: ").count();
        let told = format!("labels printed: {}, refused: {some}\n", count - some);
        assert_eq!((run.told, run.status), (told, Some(i32::from(some > 0))));
        refused += some;
        let piped = folder.shell("\"$TTW\" labels --csv - --out labels <rows");
        assert_eq!(piped.out, "");
        assert_eq!(folder.read("labels"), expected.as_bytes());
    }
    assert!(refused > 50, "{refused}");
}

#[test]
fn single_labels_and_runs_are_printed_as_they_stand() {
    let folder = Folder::new();
    let alone = full_csv_row().with(7, b"").with(8, b"").bytes();
    folder.put(
        "rows",
        &[WORKED.as_bytes(), WORKED.as_bytes(), &alone].concat(),
    );
    let ask = |options: &[&str]| folder.ttw(&[&["labels", "--csv", "rows"], options].concat());
    let label = "ATTIC FLAT\n110-114 QUARRY LANE\nHARTWELL BAY\nAB1 9ZZ\n";
    ask(&["--nth", "2"]).prints(label);
    ask(&["--nth", "1", "--count", "2"]).prints(&label.repeat(2));
    let none = "there is none of that number (refusal 7)";
    ask(&["--nth", "4"]).only_tells(1, &format!("row 4: {none}"));
    ask(&["--nth", "0"]).only_tells(1, &format!("row 0: {none}"));
    let rule = "a sub building without building name or number (refusal 8, rule 1)";
    ask(&["--nth", "3"]).only_tells(1, &format!("row 3: {rule}"));
    let run = ask(&["--nth", "2", "--count", "9"]);
    assert_eq!((run.status, run.out.as_str()), (Some(1), label));
    assert_eq!(run.told, format!("row 3: {rule}\n"));
    folder.put("rows", b"");
    ask(&[]).only_tells(0, "labels printed: 0, refused: 0");
}

#[test]
fn a_refused_file_is_told_with_row_and_field() {
    let folder = Folder::new();
    let full = full_csv_row();
    let too_long = "csv: a field is longer than CSV PAF allows, or has a comma or a double quote \
        (refusal 15)";
    let cases: [(CsvRow, &str); 4] = [
        (
            full.with(7, b"1A"),
            "csv: row 2 is malformed at field 7, the building number (refusal 14)",
        ),
        (
            full.with(1, b"AB19ZZ"),
            "csv: row 2 is malformed at field 1, the postcode (refusal 14)",
        ),
        (
            full.with(16, b"1A,"),
            "csv: row 2 is malformed behind its last field (refusal 14)",
        ),
        (full.with(2, b"\"HOLT\""), too_long),
    ];
    for (row, told) in cases {
        folder.put("rows", &[WORKED.as_bytes(), &row.bytes()].concat());
        for options in [&[][..], &["--nth", "1"], &["--nth", "1", "--count", "1"]] {
            let run = folder.ttw(&[&["labels", "--csv", "rows"], options].concat());
            run.only_tells(1, told);
        }
    }
    for damaged in damaged_csv(&mut Rng::new(79)).iter().step_by(40) {
        folder.put("rows", &damaged.csv);
        let run = folder.ttw(&["labels", "--csv", "rows"]);
        let number = format!("(refusal {})\n", damaged.refusal.number);
        assert!(
            run.told.ends_with(&number),
            "{}: {}",
            damaged.what,
            run.told
        );
        assert_eq!((run.status, run.out.as_str()), (Some(1), ""));
    }
}

#[test]
fn wrong_usage() {
    let folder = Folder::with_pair(&worked_pair());
    folder.put("rows", WORKED.as_bytes());
    let told = |line: &str, told: &str| {
        let run = folder.shell(&format!("\"$TTW\" {line}"));
        run.only_tells(2, &format!("ttw: {told}"));
    };
    told(
        "labels changes1 changes2 --csv rows",
        "labels with --csv takes files: 0, given: 2; see: ttw help labels",
    );
    told(
        "labels --csv rows --view 1",
        "--csv stands without --view and --code",
    );
    told(
        "labels --csv rows --code AB1",
        "--csv stands without --view and --code",
    );
    told(
        "labels --csv rows --count 1",
        "--count needs --nth, to count from",
    );
    told("labels --csv", "--csv needs a value");
    told("labels --csv ''", "--csv takes a name, not an empty one");
    told("labels --csv rows --csv rows", "--csv is given twice");
    told(
        "labels --csv none",
        "cannot read none: No such file or directory (os error 2)",
    );
    told(
        "csv changes1",
        "csv takes files: 2, given: 1; see: ttw help csv",
    );
    told(
        "csv changes1 changes2 --code AB1",
        "there is no option --code here",
    );
    told(
        "main labels set --csv rows",
        "there is no option --csv here",
    );
    told("main csv set --code AB1", "there is no option --code here");
}

/// What is no CSV file is told by its beginning, however long it is.
#[test]
fn endless_files_are_refused_at_once() {
    let folder = Folder::new();
    let none = "ttw: standard input is no CSV file: no row ends in its first 65536 bytes";
    folder
        .shell("\"$TTW\" labels --csv - </dev/zero")
        .only_tells(2, none);
    let first = "csv: row 1 is malformed at field 1, the postcode (refusal 14)";
    folder
        .shell("(printf 'x\\r\\n'; cat /dev/zero) 2>/dev/null | \"$TTW\" labels --csv -")
        .only_tells(1, first);
}

/// A row that is malformed is told by its number in the whole file, and a field that is too long only where there is none.
#[test]
fn a_long_file_is_judged_as_a_whole() {
    let folder = Folder::new();
    let quoted = full_csv_row().with(2, b"\"HOLT\"").bytes();
    let good = WORKED.repeat(2_000);
    let told = |rows: &[&[u8]], told: &str| {
        folder.put("rows", &rows.concat());
        folder.ttw(&["labels", "--csv", "rows"]).only_tells(1, told);
    };
    let malformed =
        |row| format!("csv: row {row} is malformed at field 1, the postcode (refusal 14)");
    told(&[good.as_bytes(), b"\r\n"], &malformed(2_001));
    told(&[&quoted, good.as_bytes(), b"\r\n"], &malformed(2_002));
    told(&[&quoted, b"\r\n", good.as_bytes()], &malformed(2));
    let carried =
        "csv: a field is longer than CSV PAF allows, or has a comma or a double quote (refusal 15)";
    told(&[&quoted, good.as_bytes()], carried);
    told(&[good.as_bytes(), &quoted], carried);
}

/// Of each view of the samples but one the row prints the label of the files.
#[test]
fn rows_read_back_print_the_labels_of_the_files() {
    let pair = pair();
    let folder = Folder::with_pair(&pair);
    folder.ttw(&["csv", "changes1", "changes2", "--out", "rows"]);
    let views = (1..).zip(&pair.views).filter_map(|(number, view)| {
        let label = paper::label_of(&pair.table, &pair.points, number).ok()?;
        let marked = view.concatenation == b'Y';
        Some((String::from_utf8(label).expect("text"), marked))
    });
    let (mut rows, mut marked) = (0, 0);
    for (label, is_marked) in views {
        rows += 1;
        marked += usize::from(is_marked);
        let number = rows.to_string();
        let run = folder.ttw(&["labels", "--csv", "rows", "--nth", &number]);
        assert_eq!(run.out == label, !is_marked, "{}", run.out);
    }
    assert_eq!((rows, marked), (36, 2));
    let behind = folder.ttw(&["labels", "--csv", "rows", "--nth", "37"]);
    assert_eq!(behind.status, Some(1));
}

/// Rows with every kind of field: those of the samples, of the largest files, and
/// of all bytes that a text may have.
fn many_rows() -> Vec<u8> {
    let text: Vec<u8> = (33..=126)
        .filter(|byte: &u8| !byte.is_ascii_lowercase() && !b",\"".contains(byte))
        .collect();
    let (first, rest) = text.split_at(35);
    let every = full_csv_row().with(3, first).with(12, rest);
    let random = csv_rows(&mut Rng::new(83), 400);
    let (samples, _) = plain_rows_of(&pair());
    [samples.as_bytes(), &every.bytes(), &csv_file(&random)].concat()
}

/// The fields of rows, each as hexadecimal digits, a comma behind each, a line for
/// each row.
fn in_digits(csv: &[u8]) -> String {
    let csv = String::from_utf8(csv.to_vec()).expect("text");
    let digits = |field: &str| -> String {
        let bytes = field.bytes().map(|byte| format!("{byte:02X}"));
        bytes.chain([",".to_string()]).collect()
    };
    let row = |row: &str| row.split(',').map(digits).collect::<String>() + "\n";
    csv.split_terminator("\r\n").map(row).collect()
}

/// Runs a program that reads `rows` and prints its fields so; says where it is not
/// installed.
fn compare_with(program: &str, line: &str) {
    if !is_installed(program) {
        eprintln!("{program} is not installed: what it reads is not compared");
        return;
    }
    let folder = Folder::new();
    let rows = many_rows();
    assert!(paper::csv::check(&rows).is_ok_and(|rows| rows > 400));
    folder.put("rows", &rows);
    folder.shell(line).prints(&in_digits(&rows));
}

#[test]
fn python_reads_the_same_fields() {
    compare_with(
        "python3",
        "python3 -c '
import csv
for row in csv.reader(open(\"rows\", newline=\"\")):
    print(\"\".join(field.encode(\"ascii\").hex().upper() + \",\" for field in row))
'",
    );
}

#[test]
fn sqlite_imports_the_same_fields() {
    let columns: Vec<String> = (1..=16).map(|field| format!("f{field}")).collect();
    let digits: Vec<String> = columns.iter().map(|name| format!("hex({name})")).collect();
    let line = format!(
        "sqlite3 -batch :memory: 'create table paf ({});' '.mode csv' '.import rows paf' \
        '.mode list' \"select {} || ',' from paf order by rowid;\"",
        columns.join(" text, ") + " text",
        digits.join(" || ',' || "),
    );
    compare_with("sqlite3", &line);
}

/// What Python writes without quotes is accepted, and has the labels of its fields.
#[test]
fn what_python_writes_is_read() {
    if !is_installed("python3") {
        eprintln!("python3 is not installed: what it writes is not read");
        return;
    }
    let folder = Folder::new();
    let rows = many_rows();
    folder.put("rows", &rows);
    let copied = folder.shell(
        "python3 -c '
import csv
rows = csv.reader(open(\"rows\", newline=\"\"))
csv.writer(open(\"copy\", \"w\", newline=\"\"), quoting=csv.QUOTE_NONE).writerows(rows)
'",
    );
    copied.prints("");
    assert!(folder.read("copy") == rows);
    assert_eq!(folder.ttw(&["labels", "--csv", "copy"]).out, listed(&rows));
}
