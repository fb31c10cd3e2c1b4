//! Document 01, "One run, complete": what the program `labels` prints.

use crate::files::{PointFile, TableFile};
use crate::layout::{FileRules, POINTS, TABLE};
use crate::listing::{entry, refused};
use crate::pair::Changes;

/// The program takes files of at most this many records.
const MOST_REPORTED: usize = 300;

/// What the program `labels` prints for the two files; one that is absent
/// counts as empty. A file that is too long or refused gives the one line that
/// says so, the table file first.
pub fn report(changes1: Option<&[u8]>, changes2: Option<&[u8]>) -> Vec<u8> {
    let table = changes1.unwrap_or_default();
    let points = changes2.unwrap_or_default();
    match pair_report(table, points) {
        Ok(text) => text,
        Err(line) => line.into_bytes(),
    }
}

/// The report of an accepted pair, or the one line for the file to blame.
fn pair_report(table: &[u8], points: &[u8]) -> Result<Vec<u8>, String> {
    check_length("table", table, &TABLE)?;
    let table = TableFile::accept(table).map_err(|why| format!("table {}", refused(why)))?;
    check_length("points", points, &POINTS)?;
    let points = PointFile::accept(points).map_err(|why| format!("points {}", refused(why)))?;
    let views = points.views().count();
    let first = format!("pair {} {} {views}\n", table.records(), points.records());
    let mut text = first.into_bytes();
    for view in points.views() {
        text.extend(entry(Changes { table, points }, &view));
    }
    Ok(text)
}

/// One longer than 300 records gives `table long` or `points long`.
fn check_length(name: &str, file: &[u8], rules: &FileRules) -> Result<(), String> {
    if file.len() > MOST_REPORTED * rules.record {
        Err(format!("{name} long\n"))
    } else {
        Ok(())
    }
}
