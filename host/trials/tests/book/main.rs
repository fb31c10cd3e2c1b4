//! The calls on a book beside the second program: histories, damaged books, labels, runs, listings and packs.

mod asked;
mod damaged;
mod histories;

/// Bytes of a book.
const LENGTH: usize = 86_530;

/// The number of the refusal in an answer, 0 for a value.
fn refusal(answer: u64) -> u8 {
    (answer >> 56) as u8
}

/// What a call answers and writes that has room for anything.
fn written(call: impl FnOnce(&mut [u8]) -> u64) -> (u64, Vec<u8>) {
    let mut out = vec![0xA5; 1 << 16];
    let answer = call(&mut out);
    (answer, out)
}
