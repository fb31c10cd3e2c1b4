//! Document 02, No. 11, "Labels for the van printer": "One handset drives a
//! printer of 6 lines by 36 columns." A label folded for it.

use crate::label::lend;
use crate::refusal::Refusal;

/// "6 lines by 36 columns".
const LINES: usize = 6;
const COLUMNS: usize = 36;

/// Writes any bytes into `out`, folded, and answers how many bytes that takes.
/// The refusals are 21, "where folding gives more than 6 lines", then 10,
/// "where the folded lines don't fit".
pub fn fold(label: &[u8], out: &mut [u8]) -> Result<usize, Refusal> {
    let folded: Vec<&[u8]> = lines(label).flat_map(fold_line).collect();
    if folded.len() > LINES {
        return Err(Refusal::new(21, 0));
    }
    let mut bytes = Vec::new();
    for line in folded {
        bytes.extend_from_slice(line);
        bytes.push(10);
    }
    lend(&bytes, out)
}

/// The same of a label that is asked for, which has at most 499 bytes: "the lower
/// library's refusals first".
pub fn fold_label(
    ask: impl FnOnce(&mut [u8]) -> Result<usize, Refusal>,
    out: &mut [u8],
) -> Result<usize, Refusal> {
    let mut label = [0; 499];
    let size = ask(&mut label)?;
    fold(&label[..size], out)
}

/// The lines of a label without their ends; bytes behind the last end are one
/// more.
fn lines(label: &[u8]) -> impl Iterator<Item = &[u8]> {
    let ended = label.split_inclusive(|&byte| byte == 10);
    ended.map(|line| line.strip_suffix(&[10]).unwrap_or(line))
}

/// "lines longer than 36 break at the last space with 1 to 36 bytes before it, or
/// at 36 if there is none; the space at a break isn't printed. What is left is
/// folded the same way".
fn fold_line(line: &[u8]) -> Vec<&[u8]> {
    let mut folded = Vec::new();
    let mut left = line;
    while left.len() > COLUMNS {
        let space = (1..=COLUMNS).rev().find(|&before| left[before] == b' ');
        let (first, behind) = match space {
            Some(before) => (&left[..before], &left[before + 1..]),
            None => left.split_at(COLUMNS),
        };
        folded.push(first);
        left = behind;
    }
    folded.push(left);
    folded
}
