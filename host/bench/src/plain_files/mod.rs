//! The calls on files as fast as a good C programmer would write them: the
//! yardstick for the library, which `host/paper` is too plain to be.
//!
//! They keep what the header promises: no call asks for memory, and none takes
//! more stack than it says. Bytes are tested many at a time, as the compiler
//! widens a loop that no byte ends; an outward code only where it is not that
//! of the record before. Where a file is not accepted, the second program says
//! why: no time is measured there.

mod build;
mod check;
mod codes;
mod label;
mod rows;
#[cfg(test)]
mod tests;
mod unspace;

pub use build::build_of;
pub use check::{
    check_points, check_table, is_live, is_organisation, is_view, letter, live, needed,
    point_records, table_records, views, views_in, Point,
};
pub use codes::codes;
pub use label::elements_of;
pub use rows::forbidden;
pub use unspace::{unspace_points, unspace_table};

use check::Row;
use paper::Refusal;

/// Both files, accepted: what is asked of the pair is asked of this.
pub struct Files<'a> {
    rows: &'a [Row],
    points: &'a [Point],
}

impl<'a> Files<'a> {
    pub fn accept(table: &'a [u8], points: &'a [u8]) -> Result<Files<'a>, Refusal> {
        let rows = table_records(table)?;
        let points = point_records(points)?;
        Ok(Files { rows, points })
    }
}
