//! `ttw extract` and `ttw main extract`: files of any length cut into parts that
//! the library accepts. Nothing is kept of an input but counts, the numbers of its
//! rows and what goes into the parts at hand.

mod counts;
mod form;
mod input;
mod pair;
mod parts;
mod rows;
mod set;
mod wanted;

use crate::arguments::Arguments;
use crate::kind::Kind;
use crate::stop::{tell, Ended, Outcome, Stop};
use counts::code_name;
use form::{Form, Outward};
use input::{Chain, Input};
use parts::check_folder;
use std::path::Path;
use wanted::Wanted;

pub use pair::extract;
pub use set::extract as main_extract;

/// The options of both commands.
pub const OPTIONS: [&str; 6] = [
    "--code",
    "--area",
    "--all",
    "--most",
    "--line-ends",
    "--out",
];

/// The fewest records of a part's file: header, trailer, a delivery point and its
/// organisation.
const FEWEST: u64 = 4;

/// What is asked for, and where it goes.
struct Asked<'a> {
    wanted: Wanted,
    folder: &'a Path,
    /// The most records of a part's file between header and trailer.
    room: usize,
    line_ends: bool,
}

impl Asked<'_> {
    fn read<'a>(given: &'a Arguments, form: &Form) -> Result<Asked<'a>, Stop> {
        let wanted = Wanted::read(given)?;
        let Some(folder) = &given.out else {
            return Err(Stop::could_not("extract needs --out FOLDER".to_string()));
        };
        let limit = form.records.most as u64;
        let most = given.most.unwrap_or(limit);
        if !(FEWEST..=limit).contains(&most) {
            return Err(Stop::could_not(format!(
                "--most takes a number from {FEWEST} to {limit}"
            )));
        }
        check_folder(folder)?;
        Ok(Asked {
            wanted,
            folder,
            room: most as usize - 2,
            line_ends: given.line_ends,
        })
    }

    /// One file that stands for itself.
    fn open(&self, path: &Path, kind: &'static Kind) -> Result<Chain, Stop> {
        Chain::new(vec![Input::open(path, kind, self.line_ends)?])
    }
}

/// What a run found: the codes that are asked for, and of those that were split
/// the number of pieces.
#[derive(Default)]
struct Found {
    codes: Vec<Outward>,
    split: Vec<(Outward, u64)>,
}

/// Tells which codes were split, what is asked for and is not there, and how many
/// parts were written.
fn ended(found: &Found, wanted: &Wanted, written: u64) -> Outcome {
    for (code, pieces) in &found.split {
        let name = code_name(*code);
        tell(&format!(
            "code {name}: too long for one part, split between views: {name}.1 to {name}.{pieces}"
        ));
    }
    let missing = wanted.missing(&found.codes);
    missing.iter().for_each(|words| tell(words));
    tell(&format!("parts written: {written}"));
    Ok(Ended::after(missing.len() as u64))
}

/// A view for which no part has room.
fn view_too_wide(code: Outward) -> Stop {
    let name = code_name(code);
    Stop::could_not(format!(
        "code {name}: a view alone refers to more rows than a part may have"
    ))
}
