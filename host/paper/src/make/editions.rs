/// An edition of the pack, as documents 01 and 02 lay it out.
#[derive(Clone, Copy, Debug, PartialEq, Eq)]
pub struct Edition {
    /// The last byte of a pack.
    pub number: u8,
    /// Bytes of a point.
    pub point: usize,
    /// Bytes of the trailer.
    pub trailer: usize,
}

/// Document 01's edition, without suffixes.
pub const FIRST: Edition = Edition {
    number: 1,
    point: 57,
    trailer: 21,
};

/// The edition with a suffix in each point.
pub const SECOND: Edition = Edition {
    number: 2,
    point: 59,
    trailer: 21,
};

/// The edition that is built, with the counts of its sectors in the trailer.
pub const BUILT: Edition = Edition {
    number: 3,
    point: 59,
    trailer: 61,
};

/// The editions that open.
pub const EDITIONS: [Edition; 3] = [FIRST, SECOND, BUILT];

impl Edition {
    /// The edition that a pack's last byte says; none where there is no such one.
    pub fn of(pack: &[u8]) -> Option<Edition> {
        let is_said = |edition: &Edition| pack.last() == Some(&edition.number);
        EDITIONS.into_iter().find(is_said)
    }

    /// Whether a point has a suffix.
    pub fn has_suffix(self) -> bool {
        self != FIRST
    }

    /// Whether the trailer has the counts of the sectors.
    pub fn has_counts(self) -> bool {
        self == BUILT
    }

    /// Where the eight offsets stand in a point: they end it.
    pub fn offsets(self) -> usize {
        self.point - 8 * 4
    }
}
