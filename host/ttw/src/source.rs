//! What the commands ask: a pair of Changes files, a Mainfile set, or a book with a
//! table file. Each question is one call of the library's.

use ttw::ask::{Refusal, Run};

/// Puts a refusal into words, by what was asked about.
pub type Words = fn(&Refusal, &str) -> String;

/// What packs are cut from, which the library accepts.
pub trait Packable: Sync {
    /// How its refusals are said.
    const WORDS: Words;

    /// Room that most packs fit into.
    const LIKELY_PACK: usize;

    /// The codes with live views, rising, each with how many it has.
    fn codes(&self) -> Result<Vec<([u8; 4], u64)>, Refusal>;

    /// The pack of a code.
    fn build(&self, code: &[u8]) -> Result<Vec<u8>, Refusal>;
}

/// Files that the library accepts.
pub trait Source: Packable {
    /// Bytes of a page of a listing or of rows: each page costs a check of the files.
    const PAGE: usize;

    /// The label of a view.
    fn label(&self, view: u64) -> Result<Vec<u8>, Refusal>;

    /// The label of the k-th live view in a code.
    fn code_label(&self, code: &[u8], k: u64) -> Result<Vec<u8>, Refusal>;

    /// The labels of so many views from `first` on.
    fn labels(&self, first: u64, count: u64, out: &mut [u8]) -> Result<Run, Refusal>;

    /// The same for the live views in a code.
    fn code_labels(
        &self,
        code: &[u8],
        first: u64,
        count: u64,
        out: &mut [u8],
    ) -> Result<Run, Refusal>;

    /// So many views from `first` on, listed.
    fn list(&self, first: u64, count: u64, out: &mut [u8]) -> Result<Run, Refusal>;

    /// The same for the live views in a code.
    fn code_list(
        &self,
        code: &[u8],
        first: u64,
        count: u64,
        out: &mut [u8],
    ) -> Result<Run, Refusal>;

    /// The rows of so many views from `first` on, as CSV PAF.
    fn csv_rows(&self, first: u64, count: u64, out: &mut [u8]) -> Result<Run, Refusal>;
}
