//! The calls on a Mainfile set with their answers taken apart: a value, or a
//! refusal.

use crate::ask::{answer, fitting, printed, rows_run, run, Refusal, Run};
use crate::main_calls::{self, Set, FILES};

/// Where the address file stands in a set.
const ADDRESSES: usize = FILES - 1;

/// Seven files as they were read.
#[derive(Clone, Copy)]
pub struct MainSet<'a>(pub Set<'a>);

impl MainSet<'_> {
    /// How many views there are.
    pub fn views(&self) -> Result<u64, Refusal> {
        answer(main_calls::views(self.0))
    }

    /// How many addresses an outward code has.
    pub fn live(&self, code: &[u8]) -> Result<u64, Refusal> {
        answer(main_calls::live(self.0[ADDRESSES], code))
    }

    /// The outward codes, rising, each with how many addresses it has.
    pub fn codes(&self) -> Result<Vec<([u8; 4], u64)>, Refusal> {
        let addresses = self.0[ADDRESSES];
        let out = fitting(0, |out| match main_calls::codes(addresses, out) {
            codes if codes >> 56 == 0 => 8 * codes,
            refused => refused,
        })?;
        let entry = |entry: &[u8]| {
            let [code, live] = [&entry[..4], &entry[4..]];
            let code: [u8; 4] = code.try_into().expect("4 bytes");
            let live: [u8; 4] = live.try_into().expect("4 bytes");
            (code, u32::from_be_bytes(live).into())
        };
        Ok(out.chunks_exact(8).map(entry).collect())
    }

    /// The label of a view.
    pub fn label(&self, view: u64) -> Result<Vec<u8>, Refusal> {
        printed(|out| main_calls::label(self.0, view, out))
    }

    /// The label of the k-th address of a code.
    pub fn code_label(&self, code: &[u8], k: u64) -> Result<Vec<u8>, Refusal> {
        printed(|out| main_calls::code_label(self.0, code, k, out))
    }

    /// The labels of so many views from `first` on, one behind the other in
    /// `out`.
    pub fn labels(&self, first: u64, count: u64, out: &mut [u8]) -> Result<Run, Refusal> {
        run(|bytes| main_calls::labels(self.0, first, count, out, bytes))
    }

    /// The same for the addresses of a code.
    pub fn code_labels(
        &self,
        code: &[u8],
        first: u64,
        count: u64,
        out: &mut [u8],
    ) -> Result<Run, Refusal> {
        run(|bytes| main_calls::code_labels(self.0, code, first, count, out, bytes))
    }

    /// So many views from `first` on, listed in `out`.
    pub fn list(&self, first: u64, count: u64, out: &mut [u8]) -> Result<Run, Refusal> {
        run(|bytes| main_calls::list(self.0, first, count, out, bytes))
    }

    /// The same for the addresses of a code.
    pub fn code_list(
        &self,
        code: &[u8],
        first: u64,
        count: u64,
        out: &mut [u8],
    ) -> Result<Run, Refusal> {
        run(|bytes| main_calls::code_list(self.0, code, first, count, out, bytes))
    }

    /// The row of a view as CSV PAF.
    pub fn csv_row(&self, view: u64) -> Result<Vec<u8>, Refusal> {
        printed(|out| main_calls::csv_row(self.0, view, out))
    }

    /// The rows of so many views from `first` on, one behind the other in `out`.
    pub fn csv_rows(&self, first: u64, count: u64, out: &mut [u8]) -> Result<Run, Refusal> {
        rows_run(|bytes| main_calls::csv_rows(self.0, first, count, out, bytes))
    }

    /// The pack of a code; `likely` is a length that spares a second round where
    /// it is enough.
    pub fn build(&self, code: &[u8], likely: usize) -> Result<Vec<u8>, Refusal> {
        fitting(likely, |out| main_calls::build(self.0, code, out))
    }
}
