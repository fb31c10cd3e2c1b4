//! The same rows in SQLite, where its command is installed.

use crate::input::CODE;
use paper::make::{Pair, TableRow, View};
use std::collections::BTreeSet;
use std::fmt::Write as _;
use std::io::Write as _;
use std::process::{Command, Stdio};
use std::{env, fs, io, process};

/// The types of the rows that a view's keys name.
const ROW_TYPES: [u8; 7] = [1, 2, 3, 2, 3, 4, 5];

const TABLES: &str = "\
PRAGMA journal_mode = OFF;
BEGIN;
CREATE TABLE row (type INTEGER, key INTEGER, a TEXT, b TEXT, c TEXT,
    PRIMARY KEY (type, key)) WITHOUT ROWID;
CREATE TABLE point (k INTEGER PRIMARY KEY, inward TEXT, suffix TEXT, type TEXT, address INTEGER,
    organisation INTEGER, number INTEGER, concatenation TEXT, box TEXT, locality INTEGER,
    thoroughfare INTEGER, descriptor INTEGER, dependent INTEGER, its_descriptor INTEGER,
    building INTEGER, sub_building INTEGER, name TEXT, department TEXT);
";

/// How many bytes a database takes for what the pack of the code holds; none
/// where the command is not installed.
pub fn size(pair: &Pair) -> Option<u64> {
    let path = env::temp_dir().join(format!("ttw-bench-{}.db", process::id()));
    let made = make(&path.to_string_lossy(), &script(pair));
    let size = fs::metadata(&path).map(|file| file.len());
    // A file that stays behind is no reason to stop.
    let _ = fs::remove_file(&path);
    made.ok().filter(|made| *made)?;
    size.ok()
}

fn make(path: &str, script: &str) -> io::Result<bool> {
    let mut child = Command::new("sqlite3")
        .args(["-batch", path])
        .stdin(Stdio::piped())
        .stdout(Stdio::null())
        .spawn()?;
    if let Some(mut input) = child.stdin.take() {
        input.write_all(script.as_bytes())?;
    }
    Ok(child.wait()?.success())
}

/// The statements that make the database, with no byte left over.
fn script(pair: &Pair) -> String {
    let outward = String::from_utf8_lossy(CODE).trim_end().to_string();
    let live: Vec<&View> = pair
        .views
        .iter()
        .filter(|view| view.is_live() && view.outward == outward)
        .collect();
    let used: BTreeSet<(u8, u32)> = live
        .iter()
        .flat_map(|view| ROW_TYPES.into_iter().zip(view.keys()))
        .collect();
    let mut script = TABLES.to_string();
    for row in &pair.rows {
        if used.contains(&(row.row_type, row.key)) {
            put_row(&mut script, row);
        }
    }
    for (k, view) in (1..).zip(live) {
        put_point(&mut script, k, view);
    }
    script + "COMMIT;\nVACUUM;\n"
}

/// Of two rows for a key the last stays.
fn put_row(script: &mut String, row: &TableRow) {
    let mut texts: Vec<String> = row.texts.iter().map(|text| quoted(text)).collect();
    texts.resize(3, "NULL".to_string());
    let texts = texts.join(", ");
    let _ = writeln!(
        script,
        "INSERT OR REPLACE INTO row VALUES ({}, {}, {texts});",
        row.row_type, row.key
    );
}

fn put_point(script: &mut String, k: u32, view: &View) {
    let letter = |byte: u8| quoted(&char::from(byte).to_string());
    let keys = view.keys().map(|key| key.to_string()).join(", ");
    let (name, department) = match &view.follower {
        Some(follower) => (quoted(&follower.organisation), quoted(&follower.department)),
        None => ("NULL".to_string(), "NULL".to_string()),
    };
    let _ = writeln!(
        script,
        "INSERT INTO point VALUES ({k}, {}, {}, {}, {}, {}, {}, {}, {}, {keys}, {name}, {department});",
        quoted(&view.inward),
        quoted(&view.suffix),
        letter(view.postcode_type),
        view.address_key,
        view.organisation_key,
        view.building_number,
        letter(view.concatenation),
        quoted(&view.po_box),
    );
}

fn quoted(text: &str) -> String {
    format!("'{}'", text.replace('\'', "''"))
}
