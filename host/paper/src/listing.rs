//! How a view is listed: document 01, "One run, complete"; and listings: for
//! each view this, for each point of a pack the line `point K`, then its label;
//! for each row of a CSV file the line `row N`, then its label or refusal.
//! A refused label does not stop a listing. It stops with 7 where no such view
//! is left, and with 10 before the first item that does not fit in what is left.

use crate::pack;
use crate::pair::Changes;
use crate::refusal::Refusal;
use crate::runs::{from, run, view_run, Run};
use crate::source::{view_label, Source, View};

/// Lists so many views, from number `first` on, in `out`.
pub fn list(
    table: &[u8],
    points: &[u8],
    first: u64,
    count: u64,
    out: &mut [u8],
) -> Result<Run, Refusal> {
    let changes = Changes::accept(table, points)?;
    Ok(view_run(changes.views(), first, count, out, |view| {
        Ok(entry(changes, view))
    }))
}

/// Lists so many live views of an outward code, from the first that is given
/// on, in `out`.
pub fn code_list(
    table: &[u8],
    points: &[u8],
    code: &[u8],
    first: u64,
    count: u64,
    out: &mut [u8],
) -> Result<Run, Refusal> {
    let changes = Changes::accept(table, points)?;
    let views = changes.live_views(code)?;
    Ok(view_run(views, first, count, out, |view| {
        Ok(entry(changes, view))
    }))
}

/// Lists so many points of a pack, from number `first` on, in `out`.
pub fn pack_list(pack: &[u8], first: u64, count: u64, out: &mut [u8]) -> Result<Run, Refusal> {
    let points = from(first, (1u64..).zip(pack::points(pack)?));
    let listed =
        |(k, point): (u64, pack::Point)| Ok(item(format!("point {k}\n"), Ok(point.label())));
    Ok(run(points.map(listed), count, out))
}

/// A view with its answer: the line `view`, number and letter, where there are
/// letters; then the label, or the line `refused`, number, detail.
pub(crate) fn entry<'a>(source: impl Source<'a>, view: &View<'a>) -> Vec<u8> {
    item(heading(view), view_label(source, view))
}

/// A heading, then the label or the line of its refusal.
pub(crate) fn item(heading: String, label: Result<Vec<u8>, Refusal>) -> Vec<u8> {
    let mut text = heading.into_bytes();
    match label {
        Ok(label) => text.extend(label),
        Err(why) => text.extend(refused(why).bytes()),
    }
    text
}

fn heading(view: &View) -> String {
    match view.letter() {
        Some(letter) => format!("view {} {}\n", view.number, char::from(letter)),
        None => format!("view {}\n", view.number),
    }
}

/// `refused`, number, detail, and the byte of a malformed record last.
pub(crate) fn refused(refusal: Refusal) -> String {
    let line = format!("refused {} {}", refusal.number, refusal.detail);
    match refusal.number {
        4 => format!("{line} {}\n", refusal.second),
        _ => format!("{line}\n"),
    }
}
