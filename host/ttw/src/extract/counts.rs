//! How many records and live views a code has.

use super::form::Outward;
use std::collections::BTreeMap;
use std::fmt;
use ttw::words::shown;

/// Of one code.
#[derive(Clone, Copy, Debug, Default, PartialEq, Eq)]
pub struct Count {
    pub records: u64,
    pub live: u64,
}

impl Count {
    /// What is left where another is taken away; none where that is more.
    pub fn without(self, other: Count) -> Option<Count> {
        Some(Count {
            records: self.records.checked_sub(other.records)?,
            live: self.live.checked_sub(other.live)?,
        })
    }
}

impl fmt::Display for Count {
    fn fmt(&self, out: &mut fmt::Formatter) -> fmt::Result {
        let Count { records, live } = self;
        write!(out, "{records} records and {live} live views")
    }
}

/// Of some codes, rising.
pub type Counts = BTreeMap<Outward, Count>;

/// A code without its padding.
pub fn code_name(code: Outward) -> String {
    shown(code.trim_ascii_end())
}
