//! Rows of CSV PAF, written and read as fast as a good C programmer would, with
//! the promises of `plain_files`.

mod read;
#[cfg(test)]
mod tests;
mod write;

pub use read::Csv;
pub use write::{row, Tail};
