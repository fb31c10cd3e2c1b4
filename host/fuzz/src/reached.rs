//! What the calls were answered with, and what enough cases have to reach.

use crate::{malformed, sets};
use std::collections::BTreeMap;
use std::fmt;
use ttw::words::MAIN_NAMES;

/// After so many cases each kind of answer comes.
pub const ENOUGH: u64 = 2_000;

/// A kind of answer.
#[derive(Clone, Copy, Debug, PartialEq, Eq, PartialOrd, Ord)]
pub struct Kind {
    pub call: &'static str,
    /// The refusal's number; 0 is a value.
    pub number: u8,
    /// The file to blame.
    pub file: u8,
    /// Rule, field or step; the byte of a malformed record, the field of a
    /// malformed row; how many identifiers were rewritten. Of other values, and of
    /// other refusals, which name a record or a length, 0.
    pub detail: u64,
}

impl fmt::Display for Kind {
    fn fmt(&self, out: &mut fmt::Formatter) -> fmt::Result {
        let Kind {
            call,
            number,
            detail,
            ..
        } = self;
        if *number == 0 {
            write!(out, "{call}: value")?;
            return match detail {
                0 => Ok(()),
                _ => write!(out, " {detail}"),
            };
        }
        write!(out, "{call}: refusal {number}")?;
        let names: &[&str] = match call.starts_with("main") {
            true => &MAIN_NAMES,
            false => &["table", "points"],
        };
        if let Some(file) = self.file.checked_sub(1) {
            write!(out, " of the {}", names[usize::from(file)])?;
        }
        match number {
            4 if *detail > 0 => write!(out, ", byte {detail}"),
            14 if *detail > 0 => write!(out, ", field {detail}"),
            8 => write!(out, ", rule {detail}"),
            9 => write!(out, ", field {detail}"),
            11 => write!(out, ", step {detail}"),
            _ => Ok(()),
        }
    }
}

/// How often each kind of answer came.
#[derive(Default)]
pub struct Reached(BTreeMap<Kind, u64>);

impl Reached {
    /// Counts an answer as the library packs it.
    pub fn count(&mut self, call: &'static str, answer: u64) {
        let number = (answer >> 56) as u8;
        let detail = match number {
            0 if call.starts_with("unspace") => answer,
            4 | 14 => answer >> 32 & 0xF_FFFF,
            8 | 9 | 11 => answer & 0xFFFF_FFFF,
            _ => 0,
        };
        let file = if number == 0 { 0 } else { answer >> 52 & 0xF } as u8;
        let kind = Kind {
            call,
            number,
            file,
            detail,
        };
        *self.0.entry(kind).or_default() += 1;
    }

    /// The kinds in order, the malformed records of a call and a file as one, and
    /// so its malformed rows, each with how often it came and in how many details.
    fn told(&self) -> BTreeMap<Kind, (u64, usize)> {
        let mut told: BTreeMap<Kind, (u64, usize)> = BTreeMap::new();
        for (kind, times) in &self.0 {
            let detail = match kind.number {
                4 | 14 => 0,
                _ => kind.detail,
            };
            let (sum, details) = told.entry(Kind { detail, ..*kind }).or_default();
            *sum += times;
            *details += 1;
        }
        told
    }

    /// What enough cases have to reach and these did not.
    pub fn missing(&self) -> Vec<Kind> {
        let told = self.told();
        let is_missing = |kind: &Kind| !told.contains_key(kind) && !self.0.contains_key(kind);
        wanted().into_iter().filter(is_missing).collect()
    }
}

impl fmt::Display for Reached {
    fn fmt(&self, out: &mut fmt::Formatter) -> fmt::Result {
        for (kind, (times, details)) in self.told() {
            match kind.number {
                4 => writeln!(out, "{kind}, at {details} bytes: {times}")?,
                14 => writeln!(out, "{kind}, at {details} fields: {times}")?,
                _ => writeln!(out, "{kind}: {times}")?,
            }
        }
        Ok(())
    }
}

fn kind(call: &'static str, number: u8, file: u8, detail: u64) -> Kind {
    Kind {
        call,
        number,
        file,
        detail,
    }
}

/// The refusals that each call gives besides a value: those of a table file (t),
/// of a point file (p), of a view's rows (v), of a pack (k), of a Mainfile set (m),
/// of its addresses alone (a), of an address's rows (w), of a CSV file (c), of the
/// label of its row (r); and single ones, 28 that of a book. Of one that rewrites
/// (i), how many identifiers besides none.
const CALLS: [(&str, &str, &[u8]); 50] = [
    ("table", "t", &[]),
    ("points", "p", &[]),
    ("unspace table", "i", &[]),
    ("unspace points", "i", &[]),
    ("views", "p", &[]),
    ("letter", "p", &[7]),
    ("live", "p", &[12]),
    ("codes", "p", &[10]),
    ("label", "tpv", &[7, 10]),
    ("code label", "tpv", &[7, 10, 12]),
    ("labels", "tpv", &[7, 10]),
    ("code labels", "tpv", &[7, 10, 12]),
    ("list", "tp", &[7, 10]),
    ("code list", "tp", &[7, 10, 12]),
    ("build", "tpv", &[10, 12]),
    ("pack", "k", &[]),
    ("pack label", "k", &[7, 10]),
    ("pack suffix", "k", &[7, 13]),
    ("sector", "k", &[27]),
    ("pack labels", "k", &[7, 10]),
    ("pack list", "k", &[7, 10]),
    ("main", "m", &[]),
    ("main live", "a", &[12]),
    ("main codes", "a", &[10]),
    ("main label", "mw", &[7, 10]),
    ("main code label", "mw", &[7, 10, 12]),
    ("main labels", "mw", &[7, 10]),
    ("main code labels", "mw", &[7, 10, 12]),
    ("main list", "m", &[7, 10]),
    ("main code list", "m", &[7, 10, 12]),
    ("main build", "mw", &[10, 12]),
    ("csv row", "tpv", &[7, 10, 15]),
    ("csv rows", "tpv", &[7, 10, 15]),
    ("main csv row", "mw", &[7, 10, 15]),
    ("main csv rows", "mw", &[7, 10, 15]),
    ("csv", "c", &[]),
    ("csv label", "cr", &[7, 10]),
    ("csv labels", "cr", &[7, 10]),
    ("csv list", "c", &[7, 10]),
    ("book", "", &[28]),
    ("book event", "p", &[7, 17, 18, 19, 20, 28]),
    ("book tidy", "", &[28]),
    ("book live", "", &[12, 28]),
    ("book label", "tv", &[7, 10, 28]),
    ("book code label", "tv", &[7, 10, 12, 28]),
    ("book labels", "tv", &[7, 10, 28]),
    ("book code labels", "tv", &[7, 10, 12, 28]),
    ("book list", "t", &[7, 10, 28]),
    ("book code list", "t", &[7, 10, 12, 28]),
    ("book build", "tv", &[10, 12, 28]),
];

/// The last field at which a row is malformed: what stands behind the sixteen.
const LAST_FIELD: u64 = 17;

/// Every kind of answer that there is; of malformed records each byte for the
/// checks of the files, and of malformed rows each field, and any for the other
/// calls.
pub fn wanted() -> Vec<Kind> {
    let at = |call, file| move |byte| kind(call, 4, file, byte);
    let table = malformed::bytes(1).into_iter().map(at("table", 1));
    let points = malformed::bytes(2).into_iter().map(at("points", 2));
    let mut wanted: Vec<Kind> = table.chain(points).collect();
    for file in 1..=7 {
        wanted.extend(sets::bytes(file).into_iter().map(at("main", file)));
    }
    wanted.extend((1..=LAST_FIELD).map(|field| kind("csv", 14, 0, field)));
    for (call, groups, single) in CALLS {
        let mut add = |number, file, details: std::ops::RangeInclusive<u64>| {
            wanted.extend(details.map(|detail| kind(call, number, file, detail)));
        };
        add(0, 0, 0..=0);
        single.iter().for_each(|number| add(*number, 0, 0..=0));
        for group in groups.chars() {
            match group {
                't' => (1..=5).for_each(|number| add(number, 1, 0..=0)),
                'p' => (1..=6).for_each(|number| add(number, 2, 0..=0)),
                'v' => [(8, 3), (9, 7)]
                    .into_iter()
                    .for_each(|(number, last)| add(number, 0, 1..=last)),
                'm' => (1..=7)
                    .flat_map(|file| (1..=5).map(move |number| (number, file)))
                    .for_each(|(number, file)| add(number, file, 0..=0)),
                'a' => (1..=5).for_each(|number| add(number, 7, 0..=0)),
                'w' => [(8, 3), (9, 8)]
                    .into_iter()
                    .for_each(|(number, last)| add(number, 0, 1..=last)),
                'c' => [14, 15]
                    .into_iter()
                    .for_each(|number| add(number, 0, 0..=0)),
                'r' => add(8, 0, 1..=2),
                'i' => add(0, 0, 1..=2),
                _ => add(11, 0, 1..=4),
            }
        }
    }
    wanted
}
