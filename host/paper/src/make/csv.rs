use super::texts::{any_text, organisation, place, premises};
use super::{inward, outward, suffix, Rng};
use crate::refusal::Refusal;

/// A row of a CSV file, field by field in the order of the guide's chapter 20.
#[derive(Clone, Debug, PartialEq, Eq)]
pub struct CsvRow(pub [Vec<u8>; 16]);

impl CsvRow {
    /// The row with its end.
    pub fn bytes(&self) -> Vec<u8> {
        [&self.0.join(&b',')[..], b"\r\n"].concat()
    }

    /// The row with another field, counted from 1.
    pub fn with(&self, field: usize, bytes: &[u8]) -> CsvRow {
        let mut row = self.clone();
        row.0[field - 1] = bytes.to_vec();
        row
    }
}

/// A file of these rows.
pub fn csv_file(rows: &[CsvRow]) -> Vec<u8> {
    rows.iter().flat_map(CsvRow::bytes).collect()
}

/// The most bytes of each field.
const WIDTHS: [usize; 16] = [8, 30, 35, 35, 80, 80, 4, 50, 30, 6, 60, 60, 8, 1, 1, 2];

/// The fields that are texts, counted from 1.
const TEXTS: [usize; 10] = [2, 3, 4, 5, 6, 8, 9, 10, 11, 12];

/// A row in which each field has as many bytes as it may have.
pub fn full_csv_row() -> CsvRow {
    let mut row = CsvRow(WIDTHS.map(|width| vec![b'9'; width]));
    row.0[0] = b"EC1N 9ZZ".to_vec();
    row.0[13] = b"L".to_vec();
    row.0[14] = b"Y".to_vec();
    row.0[15] = b"9T".to_vec();
    row
}

/// So many random rows that are accepted. Some of them are refused a label.
pub fn csv_rows(rng: &mut Rng, count: usize) -> Vec<CsvRow> {
    (0..count).map(|_| csv_row(rng)).collect()
}

fn csv_row(rng: &mut Rng) -> CsvRow {
    let postcode = [outward(rng).trim_ascii_end(), b" ", &inward(rng)].concat();
    let dependent = optional(rng, place, 35);
    let double_dependent = match dependent.trim_ascii_end() {
        b"" => padding(rng, b"", 35),
        _ => optional(rng, place, 35),
    };
    let postcode_type = *rng.pick(b"SL");
    let department = optional(rng, organisation, 60);
    let name = match (postcode_type, department.trim_ascii_end()) {
        (b'S', [_, ..]) => filled(rng, organisation, 60),
        _ => optional(rng, organisation, 60),
    };
    CsvRow([
        postcode,
        filled(rng, place, 30),
        dependent,
        double_dependent,
        optional(rng, place, 80),
        optional(rng, place, 80),
        number(rng),
        optional(rng, premises, 50),
        optional(rng, premises, 30),
        optional(rng, any_text, 6),
        department,
        name,
        udprn(rng),
        vec![postcode_type],
        rng.pick(&[&b"Y"[..], b" ", b""]).to_vec(),
        suffix(rng),
    ])
}

/// How a text of at most so many bytes is made.
type Maker = fn(&mut Rng, usize) -> String;

/// A text that a row can carry, sometimes with padding.
fn filled(rng: &mut Rng, text: Maker, width: usize) -> Vec<u8> {
    let text = text(rng, width).replace([',', '"'], "-").into_bytes();
    padding(rng, &text, width)
}

/// Such a text, or often none.
fn optional(rng: &mut Rng, text: Maker, width: usize) -> Vec<u8> {
    match rng.below(2) {
        0 => padding(rng, b"", width),
        _ => filled(rng, text, width),
    }
}

/// Once in four times with spaces behind it, up to the full width.
fn padding(rng: &mut Rng, text: &[u8], width: usize) -> Vec<u8> {
    let mut field = text.to_vec();
    if rng.one_in(4) {
        let spaces = rng.below(width - text.len() + 1);
        field.extend(vec![b' '; spaces]);
    }
    field
}

/// A building number, often none or zero, with leading zeros or without.
fn number(rng: &mut Rng) -> Vec<u8> {
    let any = rng.within(1, 9_999);
    match rng.below(5) {
        0 => rng.pick(&["0", "00", "0000"]).to_string(),
        1 => format!("{any:0>4}"),
        2 => any.to_string(),
        3 => format!("0{}", any % 10),
        _ => String::new(),
    }
    .into_bytes()
}

/// A UDPRN, often none.
fn udprn(rng: &mut Rng) -> Vec<u8> {
    let any = rng.within(0, 99_999_999);
    match rng.below(4) {
        0 => format!("{any:0>8}"),
        1 => any.to_string(),
        _ => String::new(),
    }
    .into_bytes()
}

/// A damaged CSV file, what is wrong with it, and the refusal that it has to
/// give.
#[derive(Clone, Debug)]
pub struct DamagedCsv {
    pub what: String,
    pub csv: Vec<u8>,
    pub refusal: Refusal,
}

/// Files of a few rows of which one is damaged, wherever it stands; and files
/// with two kinds of damage, or with no end.
pub fn damaged_csv(rng: &mut Rng) -> Vec<DamagedCsv> {
    let mut damaged = Vec::new();
    for bad in bad_rows() {
        for at in 0..3 {
            let mut rows: Vec<Vec<u8>> = (0..3).map(|_| csv_row(rng).bytes()).collect();
            rows[at] = bad.bytes.clone();
            damaged.push(DamagedCsv {
                what: format!("{}, row {}", bad.what, at + 1),
                csv: rows.concat(),
                refusal: bad.refusal(at + 1),
            });
        }
    }
    damaged.extend(twice_damaged(rng));
    damaged.extend(without_end(rng));
    damaged
}

/// A damaged row.
struct BadRow {
    what: String,
    bytes: Vec<u8>,
    /// The field of 14; none where the row is refused with 15.
    malformed: Option<usize>,
}

impl BadRow {
    /// A row with one field changed.
    fn of(row: &CsvRow, field: usize, bytes: &[u8], malformed: Option<usize>) -> BadRow {
        BadRow {
            what: format!("field {field}: {}", bytes.escape_ascii()),
            bytes: row.with(field, bytes).bytes(),
            malformed,
        }
    }

    fn refusal(&self, row: usize) -> Refusal {
        match self.malformed {
            Some(field) => Refusal::malformed_row(row, field),
            None => Refusal::new(15, 0),
        }
    }
}

fn bad_rows() -> Vec<BadRow> {
    let full = full_csv_row();
    let mut bad = bad_texts(&full);
    bad.extend(bad_digits(&full));
    bad.extend(bad_forms(&full));
    bad.extend(bad_neighbours(&full));
    bad.extend(bad_counts(&full));
    bad
}

/// Texts that are malformed, that are too long, that have a quote, or more than
/// one of these.
fn bad_texts(full: &CsvRow) -> Vec<BadRow> {
    let mut bad = Vec::new();
    for field in TEXTS {
        let width = WIDTHS[field - 1];
        let longer = |last: u8| [vec![b'X'; width], vec![last]].concat();
        let malformed: [&[u8]; 11] = [
            b" X", b"x", b"Xz", b"X\x1f", b"X\x7f", b"X\x80", b"\xff", b"\r", b"X\n", b"X\rY",
            b"\n\r",
        ];
        let malformed = malformed.map(<[u8]>::to_vec).into_iter();
        let malformed = malformed.chain([longer(b'x'), longer(b'\r'), b"\"x\"".to_vec()]);
        bad.extend(malformed.map(|text| BadRow::of(full, field, &text, Some(field))));
        let beyond = [
            longer(b'X'),
            longer(b' '),
            longer(b'"'),
            [vec![b'X'], vec![b' '; width]].concat(),
            b"\"".to_vec(),
            b"X\"".to_vec(),
            b"\"X\"".to_vec(),
        ];
        bad.extend(beyond.map(|text| BadRow::of(full, field, &text, None)));
    }
    for blank in ["", " ", &" ".repeat(31)] {
        bad.push(BadRow::of(full, 2, blank.as_bytes(), Some(2)));
    }
    for field in TEXTS.into_iter().filter(|field| *field > 3) {
        let blank = vec![b' '; WIDTHS[field - 1] + 1];
        bad.push(BadRow::of(full, field, &blank, None));
    }
    bad
}

/// Numbers and UDPRNs that aren't digits, or have too many.
fn bad_digits(full: &CsvRow) -> Vec<BadRow> {
    let mut bad = Vec::new();
    for field in [7, 13] {
        let longer = "0".repeat(WIDTHS[field - 1] + 1);
        for text in [" ", "1 ", " 1", "-1", "1A", "1\r", "\n", "/", ":", "\"1\""] {
            bad.push(BadRow::of(full, field, text.as_bytes(), Some(field)));
        }
        let letter = format!("{longer}A");
        bad.push(BadRow::of(full, field, letter.as_bytes(), Some(field)));
        for text in [&longer, &"1234567890".repeat(5)] {
            bad.push(BadRow::of(full, field, text.as_bytes(), None));
        }
    }
    bad
}

/// Postcodes, types, indicators and suffixes in another than their one form.
fn bad_forms(full: &CsvRow) -> Vec<BadRow> {
    const FORMS: [(usize, &[&str]); 4] = [
        (
            1,
            &[
                "",
                " ",
                "AB1",
                "AB19ZZ",
                "AB1  9ZZ",
                " AB1 9ZZ",
                "AB1 9ZZ ",
                "AB1 9ZZ  ",
                "QA1 9ZZ",
                "AI1 9ZZ",
                "AB1 9CZ",
                "AB1 9ZV",
                "AB1 ZZZ",
                "ab1 9zz",
                "AB1 9ZZZ",
                "AB1 9Z",
                "AB1-9ZZ",
                "ABC1D 9ZZ",
                "AB1 9ZZ\r",
                "\nAB1 9ZZ",
                "\"AB1 9ZZ\"",
                "A B1 9ZZ",
            ],
        ),
        (14, &["", " ", "s", "X", "SL", "S ", "\r", "\"S\""]),
        (15, &["N", "y", "YY", "  ", "Y ", "\n", "\"Y\""]),
        (
            16,
            &[
                "", "1", "A", "1AA", "A1", "1a", "  ", "1 ", "/A", ":A", "1@", "1[", "1A\r", "1A ",
            ],
        ),
    ];
    let of_field = |(field, forms): (usize, &'static [&'static str])| {
        let bad = move |form: &&str| BadRow::of(full, field, form.as_bytes(), Some(field));
        forms.iter().map(bad)
    };
    FORMS.into_iter().flat_map(of_field).collect()
}

/// Fields that are malformed because of others.
fn bad_neighbours(full: &CsvRow) -> Vec<BadRow> {
    let small = full.with(14, b"S");
    let empty: [&[u8]; 2] = [b"", b"   "];
    let alone = empty.map(|text| BadRow::of(full, 3, text, Some(4)));
    let nameless = empty.map(|text| BadRow::of(&small, 12, text, Some(12)));
    let nameless_at_once = small.with(12, b"").with(13, b"X").bytes();
    let mut bad: Vec<BadRow> = alone.into_iter().chain(nameless).collect();
    bad.push(BadRow {
        what: "no name, and a UDPRN that is none".to_string(),
        bytes: nameless_at_once,
        malformed: Some(12),
    });
    bad
}

/// Rows that have fewer or more fields, and rows that end by LF alone.
fn bad_counts(full: &CsvRow) -> Vec<BadRow> {
    let ended = |fields: &[Vec<u8>], end: &[u8]| [&fields.join(&b',')[..], end].concat();
    let mut bad = Vec::new();
    for count in 0..16 {
        bad.push(BadRow {
            what: format!("{count} fields"),
            bytes: ended(&full.0[..count], b"\r\n"),
            malformed: Some(if count == 0 { 1 } else { count + 1 }),
        });
    }
    for end in [",\r\n", ",X\r\n", ",,,\r\n", ",\"\r\n", ",\r\r\n"] {
        bad.push(BadRow {
            what: format!("behind field 16: {}", end.escape_debug()),
            bytes: ended(&full.0, end.as_bytes()),
            malformed: Some(17),
        });
    }
    for end in ["\r\r\n", "\n\r\n", "\"\r\n", " \r\n"] {
        bad.push(BadRow {
            what: format!("in field 16: {}", end.escape_debug()),
            bytes: ended(&full.0, end.as_bytes()),
            malformed: Some(16),
        });
    }
    bad
}

/// A malformed row, and another damaged row before or behind it: the malformed
/// one is told.
fn twice_damaged(rng: &mut Rng) -> Vec<DamagedCsv> {
    let full = full_csv_row();
    let good = csv_row(rng).bytes();
    let long = full.with(8, &[b'X'; 51]).bytes();
    let quoted = full.with(2, b"\"HOLT\"").bytes();
    let malformed = full.with(5, b"x").bytes();
    let both = full.with(2, b"\"HOLT\"").with(16, b"X").bytes();
    let damaged = |what: &str, rows: [&[u8]; 3], refusal| DamagedCsv {
        what: what.to_string(),
        csv: rows.concat(),
        refusal,
    };
    let beyond = Refusal::new(15, 0);
    let at = Refusal::malformed_row;
    vec![
        damaged("15, 14", [&long, &good, &malformed], at(3, 5)),
        damaged("14, 15", [&malformed, &quoted, &good], at(1, 5)),
        damaged("15 and 14 in one row", [&good, &both, &good], at(2, 16)),
        damaged("15, 14 twice", [&quoted, &both, &malformed], at(2, 16)),
        damaged("15 twice", [&quoted, &good, &long], beyond),
    ]
}

/// A file whose last row has no end, or half of one, or is cut off anywhere.
fn without_end(rng: &mut Rng) -> Vec<DamagedCsv> {
    let good = csv_row(rng).bytes();
    let full = full_csv_row();
    let bare = full.0.join(&b',');
    let mut damaged = Vec::new();
    for (end, field) in [("", 17), (",", 17), ("\r", 16), ("\n", 16), ("\n\r", 16)] {
        damaged.push(DamagedCsv {
            what: format!("the last row ends with: {}", end.escape_debug()),
            csv: [&good, &bare, end.as_bytes()].concat(),
            refusal: Refusal::malformed_row(2, field),
        });
    }
    for count in 1..16 {
        let cut = full.0[..count].join(&b',');
        damaged.push(DamagedCsv {
            what: format!("the last row ends behind field {count}"),
            csv: [&good[..], &cut].concat(),
            refusal: Refusal::malformed_row(2, count + 1),
        });
    }
    damaged
}
