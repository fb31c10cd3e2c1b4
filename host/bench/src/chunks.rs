//! Bytes as records of one width.

/// The whole records, and the bytes behind them. Rust's library has this from 1.88
/// on, which is later than the least that `host/Cargo.toml` asks for.
pub fn chunks<const WIDTH: usize>(bytes: &[u8]) -> (&[[u8; WIDTH]], &[u8]) {
    let count = bytes.len() / WIDTH;
    let (whole, rest) = bytes.split_at(count * WIDTH);
    // SAFETY: `whole` has the bytes of so many records, which may stand at any
    // place, and they are lent as long as it is.
    let records = unsafe { std::slice::from_raw_parts(whole.as_ptr().cast(), count) };
    (records, rest)
}
