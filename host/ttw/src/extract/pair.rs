//! An extract of Changes1 and Changes2. The point file rises by date, so that a
//! code stands all over it: one pass counts, and each pass behind it fills some
//! parts at a time.

use super::counts::{Count, Counts};
use super::form::{Outward, PAIR};
use super::parts::{Given, Held, Parts};
use super::rows::{Marks, Rows};
use super::{ended, view_too_wide, Asked, Found};
use crate::arguments::Arguments;
use crate::kind::POINTS;
use crate::pair::Pair;
use crate::stop::{Outcome, Stop};
use std::collections::{BTreeMap, HashMap};
use std::mem::take;
use std::path::Path;
use ttw::ask;
use ttw::words::words;

/// How many parts are filled in one pass.
const AT_A_TIME: usize = 16;

/// `ttw extract`.
pub fn extract(given: &Arguments) -> Outcome {
    let asked = Asked::read(given, &PAIR)?;
    let (kind, number) = PAIR.rows[0];
    let table = asked.open(&given.files[0], kind)?;
    let points = asked.open(&given.files[1], PAIR.records)?;
    let rows = [Rows::read(table, number)?];
    let mut parts = Parts::new(&PAIR, &rows, &points, asked.folder);
    let needs = needs(&parts, &asked)?;
    let counts = needs.iter().map(|(code, needs)| (*code, needs.count));
    parts.owed = counts.collect();
    let mut found = Found {
        codes: needs.keys().copied().collect(),
        split: Vec::new(),
    };
    for some in plan(&rows[0], needs, asked.room).chunks(AT_A_TIME) {
        found.split.extend(fill(&mut parts, some, asked.room)?);
    }
    ended(&found, &asked.wanted, parts.written)
}

/// What a code or a view takes of a part.
#[derive(Default)]
struct Needs {
    count: Count,
    /// The places of the rows that it refers to.
    rows: Vec<usize>,
}

impl Needs {
    fn add(&mut self, record: &[u8], rows: &Rows) {
        self.count.records += 1;
        self.count.live += u64::from((PAIR.is_live)(record));
        let references = (PAIR.references)(record);
        let places = references.into_iter().flat_map(|row| rows.of(row.1));
        self.rows.extend(places);
    }

    /// Once all was added: each row once.
    fn gathered(&mut self) {
        self.rows.sort_unstable();
        self.rows.dedup();
    }

    /// Whether a part has room for it.
    fn fits(&self, room: usize) -> bool {
        self.count.records as usize <= room && self.rows.len() <= room
    }
}

/// What each code that is asked for takes, by one pass over the points.
fn needs(parts: &Parts, asked: &Asked) -> Result<BTreeMap<Outward, Needs>, Stop> {
    let mut needs: BTreeMap<Outward, Needs> = BTreeMap::new();
    parts.records.each_block(|block| {
        for record in block.chunks_exact(POINTS.record) {
            let code = PAIR.code(record);
            if asked.wanted.has(code) {
                needs.entry(code).or_default().add(record, &parts.rows[0]);
            }
        }
        Ok(())
    })?;
    needs.values_mut().for_each(Needs::gathered);
    Ok(needs)
}

/// A part as it is planned: whole codes, or one that is split.
struct Planned {
    codes: Vec<Outward>,
    is_split: bool,
}

/// Codes put together as they rise, as many as there is room for.
fn plan(rows: &Rows, needs: BTreeMap<Outward, Needs>, room: usize) -> Vec<Planned> {
    let mut planned = Vec::new();
    let mut open = Open::new(rows);
    for (code, needs) in needs {
        if !needs.fits(room) {
            planned.push(Planned {
                codes: vec![code],
                is_split: true,
            });
            continue;
        }
        if !open.has_room(&needs, room) {
            planned.extend(open.closed());
            open = Open::new(rows);
        }
        open.add(&needs);
        open.codes.push(code);
    }
    planned.extend(open.closed());
    planned
}

/// A part to which more may come.
struct Open {
    codes: Vec<Outward>,
    records: usize,
    rows: Marks,
}

impl Open {
    fn new(rows: &Rows) -> Open {
        Open {
            codes: Vec::new(),
            records: 0,
            rows: rows.marks(),
        }
    }

    fn has_room(&self, needs: &Needs, room: usize) -> bool {
        let more = needs.rows.iter().filter(|place| !self.rows.is_set(**place));
        self.records + needs.count.records as usize <= room
            && self.rows.count + more.count() <= room
    }

    fn add(&mut self, needs: &Needs) {
        self.records += needs.count.records as usize;
        needs.rows.iter().for_each(|place| self.rows.set(*place));
    }

    fn closed(self) -> Option<Planned> {
        let is_used = !self.codes.is_empty();
        is_used.then_some(Planned {
            codes: self.codes,
            is_split: false,
        })
    }
}

/// Fills these parts by one pass over the points, and writes them. The codes that
/// were split, each with its pieces.
fn fill(parts: &mut Parts, planned: &[Planned], room: usize) -> Result<Vec<(Outward, u64)>, Stop> {
    let rows = &parts.rows[0];
    let new = |planned| Filled::new(planned, rows);
    let mut filled: Vec<Filled> = planned.iter().map(new).collect();
    let codes = |(index, part): (usize, &'_ Planned)| {
        let codes = part.codes.clone().into_iter();
        codes.map(move |code| (code, index))
    };
    let part_of: HashMap<Outward, usize> = planned.iter().enumerate().flat_map(codes).collect();
    parts.records.each_block(|block| {
        for group in groups(block) {
            if let Some(index) = part_of.get(&PAIR.code(group)) {
                filled[*index].take(group, parts, room)?;
            }
        }
        Ok(())
    })?;
    filled
        .iter_mut()
        .try_for_each(|part| part.write(parts, true))?;
    let split = filled.iter().filter(|part| part.planned.is_split);
    Ok(split
        .map(|part| (part.planned.codes[0], part.pieces))
        .collect())
}

/// The views of a block, each with its organisation.
fn groups(mut block: &[u8]) -> impl Iterator<Item = &[u8]> {
    std::iter::from_fn(move || {
        let behind = block.get(POINTS.record..)?;
        let has_more = !behind.is_empty() && POINTS.follows(behind);
        let (group, rest) = block.split_at(POINTS.record * (1 + usize::from(has_more)));
        block = rest;
        Some(group)
    })
}

/// A part that is being filled.
struct Filled<'a> {
    planned: &'a Planned,
    records: Vec<u8>,
    rows: &'a Rows,
    /// Of a code that is split, what this piece has room for.
    open: Open,
    /// Of a code that is split, how many pieces were written.
    pieces: u64,
}

impl Filled<'_> {
    fn new<'a>(planned: &'a Planned, rows: &'a Rows) -> Filled<'a> {
        Filled {
            planned,
            records: Vec::new(),
            rows,
            open: Open::new(rows),
            pieces: 0,
        }
    }

    /// Takes a view with its organisation.
    fn take(&mut self, group: &[u8], parts: &mut Parts, room: usize) -> Result<(), Stop> {
        if self.planned.is_split {
            let mut needs = Needs::default();
            let records = group.chunks_exact(POINTS.record);
            records.for_each(|record| needs.add(record, self.rows));
            needs.gathered();
            if !needs.fits(room) {
                return Err(view_too_wide(self.planned.codes[0]));
            }
            if !self.open.has_room(&needs, room) {
                self.write(parts, false)?;
                self.open = Open::new(self.rows);
            }
            self.open.add(&needs);
        }
        self.records.extend(group);
        Ok(())
    }

    fn write(&mut self, parts: &mut Parts, ends: bool) -> Result<(), Stop> {
        self.pieces += 1;
        let held = Held {
            codes: self.planned.codes.clone(),
            piece: self.planned.is_split.then_some(self.pieces),
            ends,
        };
        let given = Given::new(&PAIR, parts.rows, take(&mut self.records));
        parts.write(&held, &given)
    }
}

/// What stands in the folder of a part, which the library has to accept.
pub fn found(folder: &Path) -> Result<Counts, Stop> {
    let files = PAIR.names.iter().map(|name| folder.join(name));
    let pair = Pair::read_accepted(&files.collect::<Vec<_>>())?;
    let mut counts = Counts::new();
    let (records, ends) = (pair.points.len() / POINTS.record, 2);
    let between = pair.points.chunks_exact(POINTS.record).skip(1);
    for record in between.take(records - ends) {
        counts.entry(PAIR.code(record)).or_default().records += 1;
    }
    let codes = ask::codes(&pair.points);
    for (code, live) in codes.map_err(|why| Stop::Refused(words(&why, "files")))? {
        counts.entry(code).or_default().live = live;
    }
    Ok(counts)
}
