//! What the records of any file are tested for, many bytes at a time, as the compiler widens a loop that no byte ends.

use crate::chunks::chunks;
use paper::fields::outward_fault;
use paper::Refusal;

/// The places A to Z of letters, a bit for each.
const fn letters(allowed: &[u8]) -> u32 {
    let (mut bits, mut i) = (0, 0);
    while i < allowed.len() {
        bits |= 1 << (allowed[i] - b'A');
        i += 1;
    }
    bits
}

pub const INWARD: u32 = letters(b"ABDEFGHJLNPQRSTUWXYZ");
pub const AMENDMENT: u32 = letters(b"BCDI");

/// Whether a byte is one of these letters.
pub fn is_one(byte: u8, allowed: u32) -> bool {
    let place = byte.wrapping_sub(b'A');
    (place < 26) & (allowed >> (place & 31) & 1 == 1)
}

pub fn is_digit(byte: u8) -> bool {
    byte.wrapping_sub(b'0') < 10
}

/// Whether all bytes pass a test. No byte ends the loop.
pub fn all(bytes: &[u8], test: impl Fn(u8) -> bool) -> bool {
    bytes.iter().fold(true, |all, byte| all & test(*byte))
}

pub fn digits(bytes: &[u8]) -> bool {
    all(bytes, is_digit)
}

pub fn blank(bytes: &[u8]) -> bool {
    all(bytes, |byte| byte == b' ')
}

/// Whether all bytes may stand in a text.
pub fn text(bytes: &[u8]) -> bool {
    all(bytes, |byte| {
        (byte.wrapping_sub(32) < 95) & (byte.wrapping_sub(b'a') > 25)
    })
}

/// Whether a text that may not be blank is well formed.
pub fn filled(bytes: &[u8]) -> bool {
    text(bytes) & (bytes[0] != b' ')
}

/// Whether a text that may be blank is well formed.
pub fn optional(bytes: &[u8]) -> bool {
    text(bytes) & ((bytes[0] != b' ') | blank(bytes))
}

pub fn is_mark(byte: u8) -> bool {
    (byte == b'Y') | (byte == b' ')
}

/// Whether a text of such bytes is blank or begins with none.
pub fn begins(bytes: &[u8]) -> bool {
    (bytes[0] != b' ') | blank(bytes)
}

/// How a file is framed: the most records that it has, how many bytes of a mark header and trailer begin with (0 and 255,
/// or spaces), how many digits stand behind these (all 0 and all 9), and what the header then says.
pub struct Frame {
    pub most: usize,
    pub mark: usize,
    pub digits: usize,
    pub name: &'static [u8; 8],
}

impl Frame {
    /// The records of a file, where header and trailer are as they must be.
    pub fn records<'a, const WIDTH: usize>(&self, file: &'a [u8]) -> Option<&'a [[u8; WIDTH]]> {
        let (records, rest) = chunks(file);
        let [first, .., last] = records else {
            return None;
        };
        let count = self.behind(last, 255, b'9')?;
        let framed = rest.is_empty()
            && records.len() <= self.most
            && self.behind(first, 0, b'0')? == self.name
            && digits(count)
            && number(count) == records.len() as u64;
        framed.then_some(records)
    }

    /// The eight bytes behind mark and digits, where these are right.
    fn behind<'a>(&self, record: &'a [u8], mark: u8, digit: u8) -> Option<&'a [u8]> {
        let (front, rest) = record.split_at(self.mark);
        let (middle, rest) = rest.split_at(self.digits);
        let marked = all(front, |byte| byte == mark) | blank(front);
        (marked & all(middle, |byte| byte == digit)).then_some(&rest[..8])
    }
}

/// The number that digits say.
pub fn number(digits: &[u8]) -> u64 {
    digits.iter().fold(0, |number, digit| {
        number * 10 + u64::from(digit.wrapping_sub(b'0'))
    })
}

/// The refusal of a file that is not accepted.
pub fn refused<A, T>(answer: Result<A, Refusal>) -> Result<T, Refusal> {
    match answer {
        Err(refusal) => Err(refusal),
        Ok(_) => panic!("one of the two is wrong about a file"),
    }
}

/// A malformed code is refused with 12.
pub fn check_code(code: &[u8]) -> Result<(), Refusal> {
    match outward_fault(code) {
        0 => Ok(()),
        _ => Err(Refusal::new(12, 0)),
    }
}
