//! Labels asked of a table file and a point file.

use crate::address::{Texts, NO_TEXTS, ORGANISATION, ROW_TYPE};
use crate::fields::trimmed;
use crate::files::{PointFile, TableFile};
use crate::layout::point;
use crate::refusal::Refusal;
use crate::source::{nth, view_label, write_label, Source, View};

/// Writes the label of a view into `out` and answers its length.
pub fn label(table: &[u8], points: &[u8], view: u64, out: &mut [u8]) -> Result<usize, Refusal> {
    let changes = Changes::accept(table, points)?;
    write_label(changes, changes.views(), view, out)
}

/// The label of a view, as `label` writes it.
pub fn label_of(table: &[u8], points: &[u8], view: u64) -> Result<Vec<u8>, Refusal> {
    let changes = Changes::accept(table, points)?;
    view_label(changes, &nth(changes.views(), view)?)
}

/// Writes the label of the k-th live view of an outward code into `out` and
/// answers its length.
pub fn code_label(
    table: &[u8],
    points: &[u8],
    code: &[u8],
    k: u64,
    out: &mut [u8],
) -> Result<usize, Refusal> {
    let changes = Changes::accept(table, points)?;
    write_label(changes, changes.live_views(code)?, k, out)
}

/// What a view of a file of any length says.
#[derive(Clone, Debug, PartialEq, Eq)]
pub struct Answer {
    pub outward: Vec<u8>,
    pub letter: u8,
    pub label: Result<Vec<u8>, Refusal>,
}

/// What each view says of two files that may be too long for the library, in
/// file order.
pub fn answers_of_any_length(table: &[u8], points: &[u8]) -> Result<Vec<Answer>, Refusal> {
    let changes = Changes {
        table: TableFile::accept_of_any_length(table)?,
        points: PointFile::accept_of_any_length(points)?,
    };
    let answer = |view: View| Answer {
        outward: view.outward().to_vec(),
        letter: view.letter().unwrap_or_default(),
        label: view_label(changes, &view),
    };
    Ok(changes.views().map(answer).collect())
}

/// A table file and a point file that have both been accepted.
#[derive(Clone, Copy)]
pub(crate) struct Changes<'a> {
    pub table: TableFile<'a>,
    pub points: PointFile<'a>,
}

impl<'a> Changes<'a> {
    pub fn accept(table: &'a [u8], points: &'a [u8]) -> Result<Changes<'a>, Refusal> {
        let table = TableFile::accept(table)?;
        let points = PointFile::accept(points)?;
        Ok(Changes { table, points })
    }
}

impl<'a> Source<'a> for Changes<'a> {
    fn views(self) -> impl Iterator<Item = View<'a>> {
        self.points.views()
    }

    /// The row in force, as a record number of the table file; for an
    /// organisation the follower's, which an accepted point file has.
    fn row(self, view: &View<'a>, place: usize) -> Option<usize> {
        match place {
            ORGANISATION => Some(view.at + 1),
            _ => self.table.row(ROW_TYPE[place], view.key(place)),
        }
    }

    fn texts(self, place: usize, row: usize) -> Texts<'a> {
        match place {
            ORGANISATION => organisation_texts(self.points.record(row)),
            _ => self.table.texts(row),
        }
    }
}

/// The texts of a follower.
pub(crate) fn organisation_texts(follower: &[u8]) -> Texts<'_> {
    let mut texts = NO_TEXTS;
    texts[0] = trimmed(&follower[point::ORGANISATION]);
    texts[1] = trimmed(&follower[point::DEPARTMENT]);
    texts
}
