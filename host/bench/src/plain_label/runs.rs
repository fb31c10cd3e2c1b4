//! Labels, rows and items of a listing, one or many, in a lent buffer.

use super::print::write;
use super::sheet::Sheet;
use paper::{Elements, Refusal, Run};

/// The most bytes of a label, and of an item.
const LABEL: usize = 499;
const ITEM: usize = 520;

/// Prints a label.
pub fn label(elements: &Elements, out: &mut [u8]) -> Result<usize, Refusal> {
    lent::<LABEL>(out, |sheet| write(elements, sheet))
}

/// Lists an item: what is said of it, then the label or the line of its refusal.
pub fn item(
    heading: impl FnOnce(&mut Sheet),
    elements: Result<Elements, Refusal>,
    out: &mut [u8],
) -> Result<usize, Refusal> {
    lent::<ITEM>(out, |sheet| {
        heading(sheet);
        match elements {
            Ok(elements) => write(&elements, sheet),
            Err(why) => refused(why, sheet),
        }
    })
}

fn refused(why: Refusal, sheet: &mut Sheet) {
    sheet.put(b"refused ");
    sheet.number(why.number.into());
    sheet.byte(b' ');
    sheet.number(why.detail);
    sheet.byte(b'\n');
}

/// Writes what takes at most so many bytes; in a buffer that may be too short, by
/// way of one that is not.
pub fn lent<const MOST: usize>(
    out: &mut [u8],
    write: impl FnOnce(&mut Sheet),
) -> Result<usize, Refusal> {
    if out.len() >= MOST {
        return Ok(written(out, write));
    }
    let mut all = [0; MOST];
    let bytes = written(&mut all, write);
    let room = out.get_mut(..bytes).ok_or(Refusal::new(10, bytes as u64))?;
    room.copy_from_slice(&all[..bytes]);
    Ok(bytes)
}

fn written(out: &mut [u8], write: impl FnOnce(&mut Sheet)) -> usize {
    let mut sheet = Sheet { out, at: 0 };
    write(&mut sheet);
    sheet.at
}

/// Prints so many of these one behind the other. Where they end before, the next
/// is refused with 7.
pub fn run<T>(
    mut all: impl Iterator<Item = T>,
    count: u64,
    out: &mut [u8],
    print: impl Fn(T, &mut [u8]) -> Result<usize, Refusal>,
) -> Run {
    let mut run = Run {
        labels: 0,
        bytes: 0,
        stop: None,
    };
    while run.labels < count {
        let printed = match all.next() {
            Some(one) => print(one, &mut out[run.bytes..]),
            None => Err(Refusal::new(7, 0)),
        };
        match printed {
            Ok(bytes) => {
                run.labels += 1;
                run.bytes += bytes;
            }
            Err(refusal) => {
                run.stop = Some(refusal);
                break;
            }
        }
    }
    run
}

/// All of them from that number on, 1 being the first; none from 0.
pub fn from<I: Iterator>(first: u64, all: I) -> impl Iterator<Item = I::Item> {
    all.skip(usize::try_from(first.wrapping_sub(1)).unwrap_or(usize::MAX))
}

/// The one label of a run.
pub fn only(run: Run) -> Result<usize, Refusal> {
    run.stop.map_or(Ok(run.bytes), Err)
}
