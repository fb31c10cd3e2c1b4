//! Refusals in plain words. The number in brackets is the one under which
//! docs/REFUSALS.md says what to do. And names from outside, as they may stand
//! in a message.

use crate::ask::Refusal;

/// A refusal as one line. `subject` is what was asked about, as `view 3`; a
/// refusal of a file names the file instead.
pub fn words(refusal: &Refusal, subject: &str) -> String {
    told(refusal, subject, &PAIR)
}

/// The same of what was asked of a Mainfile set.
pub fn main_words(refusal: &Refusal, subject: &str) -> String {
    told(refusal, subject, &MAIN)
}

/// The same of what was asked of a book and a table file.
pub fn book_words(refusal: &Refusal, subject: &str) -> String {
    told(refusal, subject, &BOOK)
}

/// The names of a Mainfile set's files, in their order.
pub const MAIN_NAMES: [&str; 7] = [
    "locality",
    "thoroughfare",
    "descriptor",
    "building",
    "sub building",
    "organisation",
    "address",
];

/// What a refusal says of the files that were asked.
struct Files {
    /// Their names, by the number of the file to blame.
    names: &'static [&'static str],
    /// The most records of each.
    most: &'static str,
    /// The key that finds nothing, by its field.
    missing: fn(u64) -> String,
    /// What their numbers count, as where building a pack names one.
    counted: &'static str,
}

const PAIR: Files = Files {
    names: &["table", "points"],
    most: "20,000",
    missing,
    counted: "view",
};

const BOOK: Files = Files {
    counted: "place",
    ..PAIR
};

const MAIN: Files = Files {
    names: &MAIN_NAMES,
    most: "1,000,000",
    missing: missing_in_a_set,
    counted: "view",
};

fn told(refusal: &Refusal, subject: &str, files: &Files) -> String {
    let blamed = usize::from(refusal.file).checked_sub(1);
    let who = match blamed.and_then(|file| files.names.get(file)) {
        Some(name) => name.to_string(),
        None if refusal.second > 0 && refusal.number != MALFORMED_ROW => {
            format!("{subject}: {} {}", files.counted, refusal.second)
        }
        None => subject.to_string(),
    };
    let detail = match refusal.number {
        8 => format!(", rule {}", refusal.detail),
        9 => format!(", field {}", refusal.detail),
        11 => format!(", step {}", refusal.detail),
        _ => String::new(),
    };
    let number = refusal.number;
    format!(
        "{who}: {} (refusal {number}{detail})",
        reason(refusal, files)
    )
}

fn reason(refusal: &Refusal, files: &Files) -> String {
    let detail = refusal.detail;
    match refusal.number {
        1 => format!(
            "the length is not that of 2 to {} whole records",
            files.most
        ),
        2 => format!("record {detail} is not the header of such a file"),
        3 => format!("record {detail}, the last, is not a trailer with the right count"),
        4 => format!("record {detail} is malformed at byte {}", refusal.second),
        5 => format!("record {detail} is not above the record before it"),
        6 => format!("record {detail} lacks its organisation record, or is a stray one"),
        7 => "there is none of that number".to_string(),
        8 => forbidden(detail).to_string(),
        9 => (files.missing)(detail),
        10 => format!("the room is too short, {detail} bytes are needed"),
        11 => damaged(detail).to_string(),
        12 => "not an outward code, such as AB1 or EC1N in capitals".to_string(),
        13 => "a pack of this edition has no suffix".to_string(),
        MALFORMED_ROW => format!("row {detail} is malformed {}", at_field(refusal.second)),
        15 => "a field is longer than CSV PAF allows, or has a comma or a double quote".to_string(),
        17 => "inserted, but the delivery point is present already".to_string(),
        18 => "deleted or changed, but the delivery point is not present".to_string(),
        19 => "a change whose B and C do not stand together".to_string(),
        20 => "inserted, but all 256 slots of the book are in use".to_string(),
        27 => "there is no inward digit above 9".to_string(),
        28 => "not a book, or it is damaged".to_string(),
        number => format!("refused with {number}, detail {detail}"),
    }
}

/// The forbidden combinations.
fn forbidden(rule: u64) -> &'static str {
    match rule {
        1 => "a sub building without building name or number",
        2 => "a dependent thoroughfare without a thoroughfare",
        _ => "a descriptor without its thoroughfare",
    }
}

/// The names of the keys of refusal 9 behind the first, with the file of a set
/// that has their rows.
const KEYS: [(&str, &str); 6] = [
    ("thoroughfare", "thoroughfare"),
    ("descriptor", "descriptor"),
    ("dependent thoroughfare", "thoroughfare"),
    ("dependent thoroughfare's descriptor", "descriptor"),
    ("building name", "building"),
    ("sub building", "sub building"),
];

/// The key that finds nothing in a table file.
fn missing(field: u64) -> String {
    match key(field) {
        Some((name, _)) => format!("the {name}'s key has no row in force in the table file"),
        None => "the locality's key is zero or has no row in force in the table file".to_string(),
    }
}

/// The key that finds nothing in a Mainfile set, or the organisation.
fn missing_in_a_set(field: u64) -> String {
    match key(field) {
        Some((name, file)) => format!("the {name}'s key has no row in the {file} file"),
        None if field == 8 => {
            "the organisation that it needs has no row in the organisation file".to_string()
        }
        None => "the locality's key is zero or has no row in the locality file".to_string(),
    }
}

/// A key behind the locality's, by its field.
fn key(field: u64) -> Option<(&'static str, &'static str)> {
    let place = field.checked_sub(2)?;
    KEYS.get(usize::try_from(place).ok()?).copied()
}

/// The refusal whose second detail is a field.
const MALFORMED_ROW: u8 = 14;

/// The names of the fields of a row, in their order.
const FIELDS: [&str; 16] = [
    "postcode",
    "post town",
    "dependent locality",
    "double dependent locality",
    "thoroughfare",
    "dependent thoroughfare",
    "building number",
    "building name",
    "sub building name",
    "PO box",
    "department",
    "organisation",
    "UDPRN",
    "postcode type",
    "indicator",
    "suffix",
];

/// Where a row is malformed.
fn at_field(field: u64) -> String {
    let place = field
        .checked_sub(1)
        .and_then(|place| usize::try_from(place).ok());
    match place.and_then(|place| FIELDS.get(place)) {
        Some(name) => format!("at field {field}, the {name}"),
        None => "behind its last field".to_string(),
    }
}

/// The step of the pack check that fails.
fn damaged(step: u64) -> &'static str {
    match step {
        1 => "not a pack, or its end is damaged",
        2 => "the rows are damaged",
        3 => "the points are damaged",
        _ => "the counts of the sectors are damaged",
    }
}

/// A name from outside, fit for a screen: what could steer a terminal is shown
/// as `\u{1b}`, a byte that is no text as `\xff`.
pub fn shown(name: &[u8]) -> String {
    let mut shown = String::new();
    for part in name.utf8_chunks() {
        part.valid().chars().for_each(|c| match c {
            '\'' | '"' => shown.push(c),
            _ => shown.extend(c.escape_debug()),
        });
        let bytes = part.invalid().iter();
        bytes.for_each(|byte| shown += &format!("\\x{byte:02x}"));
    }
    shown
}
