//! What a view of the files and a point of a pack have in common: the eight
//! rows that they may refer to, and rule 8 about which may stand together.

use crate::layout::{point, table, width, Field};

/// The eight references in offset order: locality, thoroughfare, descriptor,
/// dependent thoroughfare, its descriptor, building name, sub building,
/// organisation.
pub(crate) const REFERENCES: usize = 8;
pub(crate) const LOCALITY: usize = 0;
pub(crate) const THOROUGHFARE: usize = 1;
pub(crate) const DESCRIPTOR: usize = 2;
pub(crate) const DEPENDENT_THOROUGHFARE: usize = 3;
pub(crate) const DEPENDENT_DESCRIPTOR: usize = 4;
pub(crate) const BUILDING_NAME: usize = 5;
pub(crate) const SUB_BUILDING_NAME: usize = 6;
pub(crate) const ORGANISATION: usize = 7;

/// The type of the row that each reference names.
pub(crate) const ROW_TYPE: [u8; REFERENCES] = [1, 2, 3, 2, 3, 4, 5, 6];

/// The texts of a row without their padding: three for a locality (town,
/// dependent, double dependent), two for an organisation (name, department),
/// one for any other; those that a row doesn't have are empty.
pub(crate) type Texts<'a> = [&'a [u8]; 3];

/// The texts of an absent row.
pub(crate) const NO_TEXTS: Texts<'static> = [&[], &[], &[]];

/// What document 01 says of a row's text: no longer than its field, and empty
/// only where blank is allowed.
pub(crate) struct TextRule {
    pub longest: usize,
    pub may_be_empty: bool,
}

const fn filled(field: &Field) -> TextRule {
    TextRule {
        longest: width(field),
        may_be_empty: false,
    }
}

const fn optional(field: &Field) -> TextRule {
    TextRule {
        longest: width(field),
        may_be_empty: true,
    }
}

const LOCALITY_TEXTS: [TextRule; 3] = [
    filled(&table::POST_TOWN),
    optional(&table::DEPENDENT_LOCALITY),
    optional(&table::DOUBLE_DEPENDENT_LOCALITY),
];
const THOROUGHFARE_TEXTS: [TextRule; 1] = [filled(&table::THOROUGHFARE)];
const DESCRIPTOR_TEXTS: [TextRule; 1] = [filled(&table::DESCRIPTOR)];
const BUILDING_NAME_TEXTS: [TextRule; 1] = [filled(&table::BUILDING_NAME)];
const SUB_BUILDING_NAME_TEXTS: [TextRule; 1] = [filled(&table::SUB_BUILDING_NAME)];
const ORGANISATION_TEXTS: [TextRule; 2] =
    [optional(&point::ORGANISATION), optional(&point::DEPARTMENT)];

/// The texts that a row of a type has; none for a type that isn't 1 to 6.
pub(crate) fn text_rules(row_type: u8) -> &'static [TextRule] {
    match row_type {
        1 => &LOCALITY_TEXTS,
        2 => &THOROUGHFARE_TEXTS,
        3 => &DESCRIPTOR_TEXTS,
        4 => &BUILDING_NAME_TEXTS,
        5 => &SUB_BUILDING_NAME_TEXTS,
        6 => &ORGANISATION_TEXTS,
        _ => &[],
    }
}

/// Rule 8, the lowest detail that is broken: 1 sub building without name or
/// number, 2 dependent thoroughfare without thoroughfare, 3 descriptor without
/// its own name. The first argument says which references are present.
pub(crate) fn forbidden(present: &[bool], building_number: u64) -> Option<u64> {
    if present[SUB_BUILDING_NAME] && !present[BUILDING_NAME] && building_number == 0 {
        Some(1)
    } else if present[DEPENDENT_THOROUGHFARE] && !present[THOROUGHFARE] {
        Some(2)
    } else if present[DESCRIPTOR] && !present[THOROUGHFARE]
        || present[DEPENDENT_DESCRIPTOR] && !present[DEPENDENT_THOROUGHFARE]
    {
        Some(3)
    } else {
        None
    }
}
