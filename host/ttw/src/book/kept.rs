//! A book and a table file, to print labels and cut packs from.

use crate::files::{cannot_read, name_of, read_book, read_changes};
use crate::kind::TABLE;
use crate::source::{Packable, Words};
use crate::stop::Stop;
use std::collections::BTreeSet;
use std::fs::File;
use std::path::PathBuf;
use ttw::ask::{self, Refusal};
use ttw::words::book_words;

/// Bytes of a slot, and where a slot in use has its outward code.
const SLOT: usize = 338;
const CODE: usize = 16;

/// Both as they were read, which the library accepts.
pub struct Kept {
    pub book: Vec<u8>,
    pub table: Vec<u8>,
}

impl Kept {
    /// Reads both. Where the library refuses both, both refusals are told.
    pub fn read_accepted(files: &[PathBuf]) -> Result<Kept, Stop> {
        let name = name_of(&files[0]);
        let file = File::open(&files[0]).map_err(|why| cannot_read(&name, &why))?;
        let kept = Kept {
            book: read_book(&file, &name)?,
            table: read_changes(&files[1], &TABLE)?,
        };
        let answers = [ask::book(&kept.book), ask::table(&kept.table)];
        let refusals = answers.into_iter().filter_map(Result::err);
        let lines: Vec<String> = refusals.map(|why| book_words(&why, &name)).collect();
        match lines.is_empty() {
            true => Ok(kept),
            false => Err(Stop::Refused(lines.join("\n"))),
        }
    }
}

impl Packable for Kept {
    const WORDS: Words = book_words;
    const LIKELY_PACK: usize = 1 << 16;

    /// The codes that stand in the slots in use. How many each has, the library says.
    fn codes(&self) -> Result<Vec<([u8; 4], u64)>, Refusal> {
        let used = self
            .book
            .chunks_exact(SLOT)
            .filter(|slot| slot[..2] != [0, 0]);
        let codes: BTreeSet<[u8; 4]> = used
            .filter_map(|slot| slot[CODE..].first_chunk())
            .copied()
            .collect();
        let counted = |code: [u8; 4]| Ok((code, ask::book_live(&self.book, &code)?));
        codes.into_iter().map(counted).collect()
    }

    fn build(&self, code: &[u8]) -> Result<Vec<u8>, Refusal> {
        ask::book_build(&self.book, &self.table, code, Self::LIKELY_PACK)
    }
}
