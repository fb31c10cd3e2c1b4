//! The calls on a Mainfile set, written as those on files are (`plain_files`), with the same promises: no call asks for
//! memory, and none takes more stack than the header says.

mod build;
mod calls;
mod check;
mod label;
mod rows;
#[cfg(test)]
mod tests;

pub use calls::*;

use check::{Address, Organisation};
use paper::mainfile::Set;
use paper::Refusal;
use rows::Shelf;

/// A set, accepted: what is asked of it is asked of this. Headers and trailers are left out.
pub struct Main<'a> {
    shelves: [Shelf<'a>; 5],
    organisations: &'a [Organisation],
    addresses: &'a [Address],
}

impl<'a> Main<'a> {
    pub fn accept(set: Set<'a>) -> Result<Main<'a>, Refusal> {
        Main::accepted(set).map_or_else(
            || crate::plain_fields::refused(paper::mainfile::check(set)),
            Ok,
        )
    }

    fn accepted(set: Set<'a>) -> Option<Main<'a>> {
        let [localities, thoroughfares, descriptors, buildings, sub_buildings, organisations, addresses] =
            set;
        Some(Main {
            shelves: [
                Shelf::new(6, check::localities(localities)?),
                Shelf::new(8, check::thoroughfares(thoroughfares)?),
                Shelf::new(4, check::descriptors(descriptors)?),
                Shelf::new(8, check::buildings(buildings)?),
                Shelf::new(8, check::sub_buildings(sub_buildings)?),
            ],
            organisations: check::organisations(organisations)?,
            addresses: check::addresses(addresses)?,
        })
    }
}
