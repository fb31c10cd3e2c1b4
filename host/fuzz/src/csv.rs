//! A CSV file for a case: accepted ones, mutated ones, and others made by hand,
//! with every field at fault in turn.

use crate::files::number_of;
use crate::mutate;
use paper::make::{self, DamagedCsv, Rng};
use std::sync::LazyLock;

/// A file of rows and the number of one that is asked for.
pub struct CsvFile {
    pub bytes: Vec<u8>,
    pub row: u64,
}

/// Every damaged file that `ttw-paper` knows.
static DAMAGED: LazyLock<Vec<DamagedCsv>> = LazyLock::new(|| make::damaged_csv(&mut Rng::new(41)));

/// From one damaged file to the next that is taken, so that few cases have damage
/// of every kind.
const STRIDE: u64 = 7;

/// The file of a case.
pub fn of_case(rng: &mut Rng, number: u64) -> CsvFile {
    let most = *rng.pick(&[1, 3, 9, 40]);
    let rows = rng.below(most + 1);
    let mut bytes = make::csv_file(&make::csv_rows(rng, rows));
    match number % 4 {
        0 | 2 => bytes = damaged(number / 2),
        1 => mutate::csv(rng, &mut bytes),
        _ => {}
    }
    let row = number_of(rng, rows);
    CsvFile { bytes, row }
}

/// The damaged files in turn.
fn damaged(turn: u64) -> Vec<u8> {
    let place = (turn * STRIDE) as usize % DAMAGED.len();
    DAMAGED[place].csv.clone()
}
