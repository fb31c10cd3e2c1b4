//! The kinds of files that the command reads: how long their records are, how
//! many there may be, and what their headers and trailers have where.

use ttw::ask::{self, Refusal};
use ttw::main_calls::FILES;
use ttw::main_set::MainSet;
use ttw::words::{main_words, words, MAIN_NAMES};

/// What is known of a kind of file.
pub struct Kind {
    /// What it is called in a message.
    pub name: &'static str,
    /// Bytes of a record.
    pub record: usize,
    /// The most records that the library accepts, header and trailer counted.
    pub most: usize,
    /// Where the header has its name, and the trailer its count.
    pub at: usize,
    /// What the header says there.
    pub says: &'static [u8; WIDTH],
    /// The file's number in a refusal.
    pub file: u8,
    /// Whether it is a file of a Mainfile set. Eight digits then stand before the
    /// name, 0 in a header and 9 in a trailer.
    of_a_set: bool,
}

/// Bytes of a header's name, and of a trailer's count.
pub const WIDTH: usize = 8;

/// Where a record of a point file has its type.
const RECORD_TYPE: usize = 41;

/// Changes1.
pub static TABLE: Kind = changes(1, "table", 169, 9, b"CHANGES1");

/// Changes2.
pub static POINTS: Kind = changes(2, "points", 168, 14, b"CHANGES2");

/// The kinds of a Mainfile set in its order.
pub static MAIN: [Kind; FILES] = [
    main(1, 151, 8, b"LOCALITY"),
    main(2, 68, 8, b"THOROUGH"),
    main(3, 30, 8, b"THDESCRI"),
    main(4, 58, 8, b"BUILDING"),
    main(5, 38, 8, b"SUBBUILD"),
    main(6, 153, 8, b"ORGANISA"),
    main(7, 88, 15, b"ADDRESS "),
];

const fn changes(
    file: u8,
    name: &'static str,
    record: usize,
    at: usize,
    says: &'static [u8; WIDTH],
) -> Kind {
    Kind {
        name,
        record,
        most: 20_000,
        at,
        says,
        file,
        of_a_set: false,
    }
}

const fn main(file: u8, record: usize, at: usize, says: &'static [u8; WIDTH]) -> Kind {
    Kind {
        name: MAIN_NAMES[file as usize - 1],
        record,
        most: 1_000_000,
        at,
        says,
        file,
        of_a_set: true,
    }
}

impl Kind {
    /// Whether a file with these first bytes has the name of this kind where its
    /// header has it.
    pub fn begins(&self, front: &[u8]) -> bool {
        front.get(self.at..self.at + WIDTH) == Some(self.says)
    }

    /// A trailer with another count.
    pub fn counted(&self, trailer: &[u8], records: usize) -> Vec<u8> {
        let mut trailer = trailer.to_vec();
        trailer[self.at..self.at + WIDTH].copy_from_slice(count(records as u64).as_bytes());
        trailer
    }

    /// The header and the trailer of a file that has no other record.
    pub fn ends(&self) -> [Vec<u8>; 2] {
        let digits = if self.of_a_set { WIDTH } else { 0 };
        let end = |digit: &str, text: &str| {
            let front = format!("{:>at$}{text}", digit.repeat(digits), at = self.at);
            format!("{front:<record$}", record = self.record).into_bytes()
        };
        let says = String::from_utf8_lossy(self.says);
        [end("0", &says), end("9", &count(2))]
    }

    /// Whether the library accepts such a file.
    pub fn check(&self, file: &[u8]) -> Result<(), Refusal> {
        match (self.of_a_set, self.file) {
            (false, 1) => ask::table(file),
            (false, _) => ask::points(file),
            (true, number) => {
                let empty = MAIN.each_ref().map(|kind| kind.ends().concat());
                let mut set = empty.each_ref().map(Vec::as_slice);
                set[usize::from(number) - 1] = file;
                MainSet(set).views()
            }
        }?;
        Ok(())
    }

    /// A refusal of such a file in words.
    pub fn words(&self, why: &Refusal) -> String {
        match self.of_a_set {
            false => words(why, "files"),
            true => main_words(why, "files"),
        }
    }

    /// Whether a record between header and trailer belongs to the one before it,
    /// as an organisation in a point file.
    pub fn follows(&self, record: &[u8]) -> bool {
        !self.of_a_set && self.file == 2 && record[RECORD_TYPE] != b'1'
    }
}

/// A number as a trailer has it.
pub fn count(records: u64) -> String {
    format!("{records:0>WIDTH$}")
}
