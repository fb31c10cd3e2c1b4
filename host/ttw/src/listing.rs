//! Listings, asked for page by page and handed on item by item.

use crate::ask::{Refusal, Run, LABEL, NO_SUCH};

/// How many labels of a run are asked for at a time.
pub const AT_A_TIME: u64 = 1 << 14;

/// A page of a listing has room for so many bytes.
pub const PAGE: usize = 1 << 20;

/// So many labels, rows or items an answer can count where a run or a listing
/// stops.
pub const MOST_TOLD: u64 = (1 << 20) - 1;

/// Room for so many labels, or for as many as are asked for at a time.
pub fn room(labels: u64) -> Vec<u8> {
    vec![0; LABEL * labels.min(AT_A_TIME) as usize]
}

/// An item of a listing: its heading, and the label or its refusal.
#[derive(Debug, PartialEq, Eq)]
pub struct Item<'a> {
    pub heading: &'a str,
    pub label: Result<&'a [u8], Refusal>,
}

/// Hands on all items from number 1 on, each with its number. `ask` is a listing
/// of so many from a number on; it ends where there is no such number. `page` is
/// the room for what is asked for at a time.
pub fn each_item<E>(
    page: &mut [u8],
    mut ask: impl FnMut(u64, u64, &mut [u8]) -> Result<Run, E>,
    mut take: impl FnMut(u64, Item) -> Result<(), E>,
) -> Result<(), E> {
    let mut next = 1;
    loop {
        let listed = ask(next, MOST_TOLD, page)?;
        for item in items(&page[..listed.bytes]) {
            take(next, item)?;
            next += 1;
        }
        // Without room it goes on, and an item has room in a page of its own.
        if listed.labels == 0 || listed.stop.is_some_and(|why| why.number == NO_SUCH) {
            return Ok(());
        }
    }
}

/// The items of a listing. A line that begins with a small letter is never a
/// label's, so each of them is a heading, or the line of a refusal behind one.
fn items(mut listing: &[u8]) -> impl Iterator<Item = Item<'_>> {
    std::iter::from_fn(move || {
        let (heading, rest) = first_line(listing)?;
        let (label, behind) = match refused(rest) {
            Some((why, behind)) => (Err(why), behind),
            None => {
                let (label, behind) = rest.split_at(label_end(rest));
                (Ok(label), behind)
            }
        };
        listing = behind;
        Some(Item { heading, label })
    })
}

/// The first line without its end, and what stands behind it.
fn first_line(bytes: &[u8]) -> Option<(&str, &[u8])> {
    let end = bytes.iter().position(|byte| *byte == b'\n')?;
    let line = std::str::from_utf8(&bytes[..end]).ok()?;
    Some((line, &bytes[end + 1..]))
}

/// Where the lines end that begin with no small letter.
fn label_end(bytes: &[u8]) -> usize {
    let lines = bytes.split_inclusive(|byte| *byte == b'\n');
    let own = lines.take_while(|line| !line[0].is_ascii_lowercase());
    own.map(<[u8]>::len).sum()
}

/// A refusal of which the first line tells number and detail.
fn refused(bytes: &[u8]) -> Option<(Refusal, &[u8])> {
    let (line, behind) = first_line(bytes)?;
    let (number, detail) = line.strip_prefix("refused ")?.split_once(' ')?;
    let why = Refusal {
        number: number.parse().ok()?,
        file: 0,
        second: 0,
        detail: detail.parse().ok()?,
    };
    Some((why, behind))
}
