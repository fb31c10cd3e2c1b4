//! The two Changes files of a command.

use crate::files::{name_of, read_changes};
use crate::kind::{Kind, POINTS, TABLE};
use crate::source::{Packable, Source, Words};
use crate::stop::Stop;
use std::path::PathBuf;
use ttw::ask::{self, Refusal, Run};
use ttw::listing;
use ttw::words::words;

/// The refusal of a header.
const HEADER: u8 = 2;

/// A table file and a point file as they were read.
pub struct Pair {
    pub table: Vec<u8>,
    pub points: Vec<u8>,
}

impl Pair {
    pub fn read(files: &[PathBuf]) -> Result<Pair, Stop> {
        Ok(Pair {
            table: read_changes(&files[0], &TABLE)?,
            points: read_changes(&files[1], &POINTS)?,
        })
    }

    /// Reads two files that the library accepts. Where it refuses both, both
    /// refusals are told, so that one run shows all that is to be mended; and
    /// where the files look swapped, that is told too.
    pub fn read_accepted(files: &[PathBuf]) -> Result<Pair, Stop> {
        let pair = Pair::read(files)?;
        let answers = [ask::table(&pair.table), ask::points(&pair.points)];
        let refusals: Vec<Refusal> = answers.into_iter().filter_map(Result::err).collect();
        if refusals.is_empty() {
            return Ok(pair);
        }
        let mut lines: Vec<String> = refusals.iter().map(|why| words(why, "files")).collect();
        if pair.looks_swapped() {
            let [first, second] = [name_of(&files[0]), name_of(&files[1])];
            lines.push(format!(
                "the files look swapped: {second} begins as a table file, {first} as a point file"
            ));
        }
        Err(Stop::Refused(lines.join("\n")))
    }

    /// Whether each file has the header of the other.
    fn looks_swapped(&self) -> bool {
        has_header(&self.points, &TABLE) && has_header(&self.table, &POINTS)
    }
}

impl Packable for Pair {
    const WORDS: Words = words;
    const LIKELY_PACK: usize = 1 << 16;

    fn codes(&self) -> Result<Vec<([u8; 4], u64)>, Refusal> {
        ask::codes(&self.points)
    }

    fn build(&self, code: &[u8]) -> Result<Vec<u8>, Refusal> {
        ask::build(&self.table, &self.points, code, Self::LIKELY_PACK)
    }
}

impl Source for Pair {
    const PAGE: usize = listing::PAGE;

    fn label(&self, view: u64) -> Result<Vec<u8>, Refusal> {
        ask::label(&self.table, &self.points, view)
    }

    fn code_label(&self, code: &[u8], k: u64) -> Result<Vec<u8>, Refusal> {
        ask::code_label(&self.table, &self.points, code, k)
    }

    fn labels(&self, first: u64, count: u64, out: &mut [u8]) -> Result<Run, Refusal> {
        ask::labels(&self.table, &self.points, first, count, out)
    }

    fn code_labels(
        &self,
        code: &[u8],
        first: u64,
        count: u64,
        out: &mut [u8],
    ) -> Result<Run, Refusal> {
        ask::code_labels(&self.table, &self.points, code, first, count, out)
    }

    fn list(&self, first: u64, count: u64, out: &mut [u8]) -> Result<Run, Refusal> {
        ask::list(&self.table, &self.points, first, count, out)
    }

    fn code_list(
        &self,
        code: &[u8],
        first: u64,
        count: u64,
        out: &mut [u8],
    ) -> Result<Run, Refusal> {
        ask::code_list(&self.table, &self.points, code, first, count, out)
    }

    fn csv_rows(&self, first: u64, count: u64, out: &mut [u8]) -> Result<Run, Refusal> {
        ask::csv_rows(&self.table, &self.points, first, count, out)
    }
}

/// Whether a file begins with the header of such a file. The library is asked
/// about two records alone, whose length is right, so that whatever stands
/// behind them it comes to the header.
fn has_header(file: &[u8], kind: &Kind) -> bool {
    let refused = |two| kind.check(two).is_err_and(|why| why.number == HEADER);
    file.get(..2 * kind.record).is_some_and(|two| !refused(two))
}
