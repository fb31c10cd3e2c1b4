//! An extract of a Mainfile set, by one pass over its addresses. They rise by
//! postcode, so that a code stands together. Each code is written to its part while
//! the next is read.

use super::counts::{Count, Counts};
use super::form::{Outward, SET, TWICE};
use super::input::{Chain, Input};
use super::parts::{Given, Held, Open, Parts};
use super::rows::Rows;
use super::wanted::Wanted;
use super::{ended, Asked, Found};
use crate::arguments::Arguments;
use crate::order::side_by_side;
use crate::seven::{paths_of_a_set, Seven};
use crate::source::Packable;
use crate::stop::{Outcome, Stop};
use std::mem::take;
use std::path::{Path, PathBuf};
use ttw::words::main_words;

/// `ttw main extract`.
pub fn extract(given: &Arguments, files: &[PathBuf]) -> Outcome {
    let asked = Asked::read(given, &SET)?;
    let paths = paths_of_a_set(files)?;
    let (addresses, others) = paths.split_last().expect("seven kinds");
    let open = |path: &PathBuf| Input::open(path, SET.records, asked.line_ends);
    let inputs: Result<Vec<Input>, Stop> = addresses.iter().map(open).collect();
    let addresses = Chain::in_order(inputs?)?;
    let rows = SET.rows.iter().zip(others).map(|((kind, number), paths)| {
        let chain = asked.open(&paths[0], kind)?;
        Rows::read(chain, *number)
    });
    let rows: Vec<Rows> = rows.collect::<Result<_, Stop>>()?;
    let room = room(&rows, asked.room) * SET.records.record;
    let mut cut = Cut {
        parts: Parts::new(&SET, &rows, &addresses, asked.folder),
        room,
        open: None,
    };
    let mut found = Found::default();
    side_by_side(
        |hand_on| {
            let mut gathered = Gathered::new(&asked.wanted, &rows, room, hand_on);
            addresses.each_block(|block| {
                let mut records = block.chunks_exact(SET.records.record);
                records.try_for_each(|record| gathered.take(record))
            })?;
            gathered.close()?;
            found = gathered.found;
            Ok(())
        },
        |gathered| cut.take(gathered),
    )?;
    cut.end()?;
    ended(&found, &asked.wanted, cut.parts.written)
}

/// How many addresses a part has room for. Of most files each names one row; of
/// those that have two named, a part has room for all rows or for two of each
/// address.
fn room(rows: &[Rows], room: usize) -> usize {
    match TWICE.iter().any(|file| rows[*file].count() > room) {
        true => room / 2,
        false => room,
    }
}

/// The addresses of a code, or a piece of them where they are too many.
struct Stretch {
    code: Outward,
    piece: Option<u64>,
    given: Given,
    /// How many were read.
    count: u64,
}

/// Addresses on their way to the parts, code by code.
struct Gathered<'a> {
    wanted: &'a Wanted,
    rows: &'a [Rows],
    hand_on: &'a mut dyn FnMut(Stretch) -> Result<(), Stop>,
    /// The bytes that a part has room for.
    room: usize,
    /// The code that is being read, where it is asked for, and its addresses.
    code: Option<Outward>,
    records: Vec<u8>,
    count: u64,
    /// How many pieces of it were handed on.
    pieces: u64,
    /// The code of the last record, asked for or not.
    last: Outward,
    found: Found,
}

impl<'a> Gathered<'a> {
    fn new(
        wanted: &'a Wanted,
        rows: &'a [Rows],
        room: usize,
        hand_on: &'a mut dyn FnMut(Stretch) -> Result<(), Stop>,
    ) -> Gathered<'a> {
        Gathered {
            wanted,
            rows,
            hand_on,
            room,
            code: None,
            records: Vec::new(),
            count: 0,
            pieces: 0,
            last: Outward::default(),
            found: Found::default(),
        }
    }

    fn take(&mut self, record: &[u8]) -> Result<(), Stop> {
        let code = SET.code(record);
        if code != self.last {
            self.close()?;
            self.last = code;
            self.code = self.wanted.has(code).then_some(code);
        }
        if self.code.is_some() {
            if self.records.len() == self.room {
                self.pieces += 1;
                self.hand_on(code)?;
            }
            self.records.extend_from_slice(record);
            self.count += 1;
        }
        Ok(())
    }

    /// Ends the code that is being read.
    fn close(&mut self) -> Result<(), Stop> {
        let Some(code) = self.code.take() else {
            return Ok(());
        };
        self.found.codes.push(code);
        if self.pieces > 0 {
            self.pieces += 1;
            self.found.split.push((code, self.pieces));
        }
        self.hand_on(code)?;
        self.pieces = 0;
        Ok(())
    }

    fn hand_on(&mut self, code: Outward) -> Result<(), Stop> {
        (self.hand_on)(Stretch {
            code,
            piece: Some(self.pieces).filter(|piece| *piece > 0),
            given: Given::new(&SET, self.rows, take(&mut self.records)),
            count: take(&mut self.count),
        })
    }
}

/// Parts that are written as the codes come.
struct Cut<'a> {
    parts: Parts<'a>,
    /// The bytes that a part has room for.
    room: usize,
    /// The part to which more codes may come, with those that it has.
    open: Option<(Open, Vec<Outward>)>,
}

impl Cut<'_> {
    fn take(&mut self, stretch: Stretch) -> Result<(), Stop> {
        let Stretch { code, given, .. } = stretch;
        self.parts.owed.insert(code, all_live(stretch.count));
        let is_full = |(open, _): &(Open, _)| open.bytes + given.records.len() > self.room;
        if stretch.piece.is_some() || self.open.as_ref().is_some_and(is_full) {
            self.end()?;
        }
        if stretch.piece.is_some() {
            return self.parts.write(&held(vec![code], stretch.piece), &given);
        }
        let (mut open, mut codes) = match self.open.take() {
            Some(open) => open,
            None => (self.parts.begin(code)?, Vec::new()),
        };
        self.parts.put(&mut open, &given)?;
        codes.push(code);
        self.open = Some((open, codes));
        Ok(())
    }

    /// Ends the open part, if there is one.
    fn end(&mut self) -> Result<(), Stop> {
        match self.open.take() {
            Some((open, codes)) => self.parts.end(open, &held(codes, None)),
            None => Ok(()),
        }
    }
}

/// Codes of which no address that was read is left for another part.
fn held(codes: Vec<Outward>, piece: Option<u64>) -> Held {
    Held {
        codes,
        piece,
        ends: true,
    }
}

/// What stands in the folder of a part, which the library has to accept.
pub fn found(folder: &Path) -> Result<Counts, Stop> {
    let set = Seven::read_accepted(&[folder.to_path_buf()])?;
    let codes = set.codes();
    let codes = codes.map_err(|why| Stop::Refused(main_words(&why, "files")))?;
    let counted = codes.into_iter();
    Ok(counted.map(|(code, live)| (code, all_live(live))).collect())
}

/// So many addresses: each is live.
fn all_live(addresses: u64) -> Count {
    Count {
        records: addresses,
        live: addresses,
    }
}
