//! A pack byte by byte, with what each byte says, for docs/PACK.md.

use paper::make::{worked_pack, worked_pair, Edition, FIRST, SECOND};

/// What stands in a point, in order: how many bytes, and what they say. The suffix stands in none of edition 1.
const POINT: [(usize, &str); 8] = [
    (7, "postcode, outward padded to 4"),
    (2, SUFFIX),
    (1, "postcode type"),
    (4, "address key"),
    (4, "organisation key"),
    (2, "building number"),
    (1, "concatenation"),
    (6, "PO box"),
];

const SUFFIX: &str = "suffix";

/// The eight offsets of a point, in order.
const OFFSETS: [&str; 8] = [
    "locality",
    "thoroughfare",
    "its descriptor",
    "dependent thoroughfare",
    "its descriptor",
    "building name",
    "sub building",
    "organisation",
];

/// The names of a row and of its texts, by its type.
const ROWS: [(&str, &[&str]); 6] = [
    ("locality", &["town", "dependent", "double dependent"]),
    ("thoroughfare", &["name"]),
    ("descriptor", &["text"]),
    ("building name", &["text"]),
    ("sub building", &["text"]),
    ("organisation", &["name", "department"]),
];

/// Document 01's pack as it is built, and as it stood in editions 2 and 1.
pub fn worked_packs() -> [Vec<u8>; 3] {
    let pair = worked_pair();
    let built = ttw::ask::build(&pair.table, &pair.points, b"AB1 ", 0).expect("a pack");
    [built, worked_pack(SECOND), worked_pack(FIRST)]
}

/// An accepted pack with each of its bytes explained: where it stands, the
/// bytes as hexadecimal numbers, what they say.
pub fn annotated(pack: &[u8]) -> String {
    let edition = Edition::of(pack).expect("an accepted pack");
    let trailer = pack.len() - edition.trailer;
    let mut page = Page::new(pack);
    let number = |at: usize| number(&pack[trailer + at..trailer + at + 4]);
    for row in 1..=number(0) {
        page.heading(&format!("row {row}"));
        page.row();
    }
    for point in 1..=number(8) {
        page.heading(&format!("point {point}"));
        page.point(edition);
    }
    page.heading("trailer");
    page.trailer(edition);
    page.text
}

fn number(bytes: &[u8]) -> u64 {
    bytes
        .iter()
        .fold(0, |number, byte| number << 8 | u64::from(*byte))
}

/// The page as far as it is written.
struct Page<'a> {
    pack: &'a [u8],
    at: usize,
    text: String,
}

impl<'a> Page<'a> {
    fn new(pack: &'a [u8]) -> Page<'a> {
        Page {
            pack,
            at: 0,
            text: String::new(),
        }
    }

    fn heading(&mut self, words: &str) {
        self.text += &format!("{words}\n");
    }

    /// The next bytes without a line of their own yet.
    fn next(&mut self, length: usize) -> (usize, &'a [u8]) {
        let start = self.at;
        self.at += length;
        (start, &self.pack[start..self.at])
    }

    fn line(&mut self, start: usize, bytes: &[u8], words: &str) {
        let shown: Vec<String> = bytes.iter().map(|byte| format!("{byte:02X}")).collect();
        self.text += &format!("{start:>5}  {:<35}  {words}\n", shown.join(" "));
    }

    fn row(&mut self) {
        let (start, bytes) = self.next(1);
        let (name, texts) = ROWS[usize::from(bytes[0]) - 1];
        self.line(start, bytes, &format!("type {}, {name}", bytes[0]));
        for text in texts {
            let (start, bytes) = self.next(1);
            let length = usize::from(bytes[0]);
            self.line(start, bytes, &format!("{text}: {length} bytes"));
            if length > 0 {
                let (start, bytes) = self.next(length);
                self.line(start, bytes, &String::from_utf8_lossy(bytes));
            }
        }
    }

    fn point(&mut self, edition: Edition) {
        let has = |name| edition.has_suffix() || name != SUFFIX;
        for (length, name) in POINT.into_iter().filter(|field| has(field.1)) {
            let (start, bytes) = self.next(length);
            let said = match name {
                "address key" | "organisation key" | "building number" => number(bytes).to_string(),
                _ => format!("`{}`", String::from_utf8_lossy(bytes)),
            };
            self.line(start, bytes, &format!("{name}: {said}"));
        }
        for name in OFFSETS {
            let (start, bytes) = self.next(4);
            let said = match number(bytes) {
                4_294_967_295 => "absent".to_string(),
                offset => format!("the row at {offset}"),
            };
            self.line(start, bytes, &format!("{name}: {said}"));
        }
    }

    fn trailer(&mut self, edition: Edition) {
        for name in ["rows", "points start", "points"] {
            self.number(4, name);
        }
        let (start, bytes) = self.next(4);
        let code = String::from_utf8_lossy(bytes);
        self.line(start, bytes, &format!("outward code: `{code}`"));
        self.number(4, "bytes of the pack");
        if edition.has_counts() {
            (0..10).for_each(|digit| self.number(4, &format!("points in sector {digit}")));
        }
        self.number(1, "edition");
    }

    /// A number of so many bytes.
    fn number(&mut self, length: usize, name: &str) {
        let (start, bytes) = self.next(length);
        self.line(start, bytes, &format!("{name}: {}", number(bytes)));
    }
}
