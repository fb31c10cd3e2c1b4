//! Labels, runs of them and listings, as all plain versions print them: those of
//! the calls on files, on packs and on CSV files.

mod print;
mod runs;
mod sheet;

pub use runs::{from, item, label, lent, only, run};
pub use sheet::Sheet;

/// A text without its padding, eight bytes at a time.
pub fn trimmed(field: &[u8]) -> &[u8] {
    let mut end = field.len();
    while let Some(last) = field[..end].last_chunk::<8>() {
        let other = u64::from_le_bytes(*last) ^ u64::from_le_bytes([b' '; 8]);
        end -= other.leading_zeros() as usize / 8;
        if other != 0 {
            return &field[..end];
        }
    }
    while end > 0 && field[end - 1] == b' ' {
        end -= 1;
    }
    &field[..end]
}
