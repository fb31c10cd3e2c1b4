//! The calls on files: the library against the second program, and both against
//! what the file was made to give.

mod accepted;
mod damaged;
mod followers;
mod frames;
mod refusals;

use paper::{packed, Refusal};
use trials::agree;

/// The two kinds of files.
const KINDS: [Kind; 2] = [TABLE, POINTS];

const TABLE: Kind = Kind {
    file: 1,
    record: 169,
    identifier: 9,
    ask: agree::table,
};

const POINTS: Kind = Kind {
    file: 2,
    record: 168,
    identifier: 14,
    ask: ask_points,
};

/// What a test of both kinds of files has to know.
struct Kind {
    /// The file's number in a refusal.
    file: u8,
    /// Bytes of a record.
    record: usize,
    /// Bytes of the header's and of the trailer's identifier.
    identifier: usize,
    /// Asks both programs every call on a file: the records, or the refusal.
    ask: fn(&[u8]) -> u64,
}

impl Kind {
    /// Fails where a file isn't taken with so many records.
    #[track_caller]
    fn assert_taken(&self, file: &[u8], records: usize) {
        self.assert_answer(file, Ok(records as u64));
    }

    /// Fails where a file isn't refused with that number at that record.
    #[track_caller]
    fn assert_refused(&self, file: &[u8], number: u8, record: usize) {
        let refusal = Refusal::of_file(self.file, number, record as u64);
        self.assert_answer(file, Err(refusal));
    }

    /// Fails where a file isn't refused with 4 at that record and byte.
    #[track_caller]
    fn assert_malformed(&self, file: &[u8], record: usize, byte: usize) {
        let refusal = Refusal::malformed(self.file, record, byte);
        self.assert_answer(file, Err(refusal));
    }

    #[track_caller]
    fn assert_answer(&self, file: &[u8], expected: Result<u64, Refusal>) {
        let answer = (self.ask)(file);
        let right = answer == packed(expected);
        assert!(right, "both answer {answer:#x} and not {expected:?}");
    }
}

/// Asks every call on a point file. A refusal has to be the same from each,
/// also where no view and no code could be right.
#[track_caller]
fn ask_points(file: &[u8]) -> u64 {
    let answer = agree::points(file);
    let others = [
        agree::views(file),
        agree::letter(file, 1),
        agree::letter(file, 0),
        agree::live(file, b"AB1 "),
        agree::live(file, b"QA1 "),
    ];
    if refusal_number(answer) != 0 {
        assert_eq!(others, [answer; 5]);
    }
    answer
}

/// The number of the refusal in an answer, 0 where it is a value.
fn refusal_number(answer: u64) -> usize {
    (answer >> 56) as usize
}
