//! Document 02, "Print a street at a time": labels written one behind the
//! other, equal to asking for each in turn in what is left of the buffer. A run
//! stops before the first label that is refused or does not fit; only a refused
//! file, pack or code refuses the whole.

use crate::label::lend;
use crate::pack;
use crate::pair::Changes;
use crate::refusal::{packed, Refusal};
use crate::source::{view_label, Source, View};

/// How far a run of labels came.
#[derive(Clone, Copy, PartialEq, Eq, Debug)]
pub struct Run {
    /// How many labels were written.
    pub labels: u64,
    /// How many bytes they take together.
    pub bytes: usize,
    /// The refusal of the label before which the run stopped.
    pub stop: Option<Refusal>,
}

/// Writes the labels of so many views, from number `first` on, into `out`.
pub fn labels(
    table: &[u8],
    points: &[u8],
    first: u64,
    count: u64,
    out: &mut [u8],
) -> Result<Run, Refusal> {
    let changes = Changes::accept(table, points)?;
    Ok(view_run(changes.views(), first, count, out, |view| {
        view_label(changes, view)
    }))
}

/// Writes the labels of so many live views of an outward code, from the first
/// that is given on, into `out`.
pub fn code_labels(
    table: &[u8],
    points: &[u8],
    code: &[u8],
    first: u64,
    count: u64,
    out: &mut [u8],
) -> Result<Run, Refusal> {
    let changes = Changes::accept(table, points)?;
    let views = changes.live_views(code)?;
    Ok(view_run(views, first, count, out, |view| {
        view_label(changes, view)
    }))
}

/// Writes the labels of so many points of a pack, from number `first` on, into
/// `out`.
pub fn pack_labels(pack: &[u8], first: u64, count: u64, out: &mut [u8]) -> Result<Run, Refusal> {
    let points = from(first, pack::points(pack)?);
    Ok(run(points.map(|point| Ok(point.label())), count, out))
}

/// Writes so many of these views, from the first that is given on, into `out`,
/// each as it is printed.
pub(crate) fn view_run<'a>(
    views: impl Iterator<Item = View<'a>>,
    first: u64,
    count: u64,
    out: &mut [u8],
    printed: impl Fn(&View<'a>) -> Result<Vec<u8>, Refusal>,
) -> Run {
    run(from(first, views).map(|view| printed(&view)), count, out)
}

/// A run as one number: how many labels, or the refusal of the label before
/// which it stopped, with how many stand before it as second detail (its last 20
/// bits). `bytes` becomes the bytes of the labels, and stays as it was where the
/// whole is refused.
pub fn packed_run(answer: Result<Run, Refusal>, bytes: &mut u64) -> u64 {
    let told = answer.and_then(|run| {
        *bytes = run.bytes as u64;
        run.stop.map_or(Ok(run.labels), |stop| {
            let second = run.labels % (1 << 20);
            Err(Refusal { second, ..stop })
        })
    });
    packed(told)
}

/// All of them from that number on, 1 being the first. There is no number 0,
/// and nothing is reached from it.
pub(crate) fn from<I: Iterator>(first: u64, all: I) -> impl Iterator<Item = I::Item> {
    let before = first
        .checked_sub(1)
        .and_then(|before| usize::try_from(before).ok());
    all.skip(before.unwrap_or(usize::MAX))
}

/// Writes so many of these labels, or items of a listing, one behind the other.
/// Where they end before, the next is refused with 7.
pub(crate) fn run(
    mut labels: impl Iterator<Item = Result<Vec<u8>, Refusal>>,
    count: u64,
    out: &mut [u8],
) -> Run {
    let mut run = Run {
        labels: 0,
        bytes: 0,
        stop: None,
    };
    while run.labels < count && run.stop.is_none() {
        let label = labels.next().unwrap_or(Err(Refusal::new(7, 0)));
        match label.and_then(|label| lend(&label, &mut out[run.bytes..])) {
            Ok(bytes) => {
                run.labels += 1;
                run.bytes += bytes;
            }
            Err(why) => run.stop = Some(why),
        }
    }
    run
}
