//! The files in `samples/`, from their meaning: every row of the table of
//! premises with and without a street, every line present and absent,
//! organisations of both kinds, missing keys, forbidden combinations; in the pair
//! all four letters too. And the archived pair, the CSV file, the months of a book
//! and the packs that are kept beside them.

use super::{
    nth_suffix, space_points, space_table, worked_pair, Change, Edition, End, MainSet,
    Organisation, Pair, TableRow, View, FORBIDDEN, MISSING,
};
use crate::book::event;
use crate::csv::row;
use crate::label_of;
use std::fs;
use std::path::{Path, PathBuf};

fn rows() -> Vec<TableRow> {
    vec![
        TableRow::locality(1, "HARTWELL BAY", "", ""),
        TableRow::locality(2, "HARTWELL BAY", "NORTH END", ""),
        TableRow::locality(3, "HARTWELL BAY", "NORTH END", "MILL GREEN"),
        TableRow::thoroughfare(7, "QUARRY"),
        TableRow::thoroughfare(8, "KILN"),
        TableRow::thoroughfare(9, "THE STRAND"),
        TableRow::descriptor(3, "LANE"),
        TableRow::descriptor(4, "COURT"),
        TableRow::building(1, "ROSE COTTAGE"),
        TableRow::building(2, "12A"),
        TableRow::building(9, "110-114"),
        TableRow::sub_building(1, "1A"),
        TableRow::sub_building(2, "FLAT 1"),
        TableRow::sub_building(4, "ATTIC FLAT"),
    ]
}

/// A view in Quarry Lane, Hartwell Bay.
fn in_lane() -> View {
    View {
        locality: 1,
        thoroughfare: 7,
        descriptor: 3,
        ..View::default()
    }
}

/// A view in Hartwell Bay with no street.
fn in_town() -> View {
    View {
        locality: 1,
        ..View::default()
    }
}

/// Sub building, building name, number: the rows of the table of premises.
fn premises(view: View) -> Vec<View> {
    let case = |sub_building, building, building_number, concatenation| View {
        sub_building,
        building,
        building_number,
        concatenation,
        ..view.clone()
    };
    vec![
        case(0, 0, 0, b' '),
        case(0, 0, 3, b' '),
        case(0, 1, 0, b' '),
        case(0, 9, 0, b' '),
        case(0, 1, 3, b' '),
        case(2, 0, 3, b' '),
        case(1, 0, 3, b'Y'),
        case(1, 1, 0, b' '),
        case(1, 9, 0, b' '),
        case(2, 1, 0, b' '),
        case(4, 9, 0, b' '),
        case(1, 1, 3, b' '),
        case(2, 1, 3, b' '),
    ]
}

/// Lines that the premises don't show, other letters and codes, and views that
/// are refused.
fn others() -> Vec<View> {
    let lettered = |letter| View {
        letter,
        ..in_lane()
    };
    vec![
        View {
            locality: 3,
            dependent_thoroughfare: 8,
            dependent_descriptor: 4,
            ..in_lane()
        },
        View {
            locality: 2,
            thoroughfare: 9,
            descriptor: 0,
            building_number: 12,
            ..in_lane()
        },
        in_lane().small_user(5, "BAY BATTERIES", ""),
        in_lane().small_user(6, "BAY BATTERIES", "STORES"),
        View {
            po_box: "70".to_string(),
            ..in_lane()
        }
        .large_user("GRID OFFICE", "METERS"),
        in_town().large_user("", ""),
        lettered(b'B'),
        lettered(b'C'),
        View {
            building: 10,
            sub_building: 4,
            ..lettered(b'D')
        },
        View {
            locality: 0,
            ..in_lane()
        },
        View {
            sub_building: 1,
            ..in_lane()
        },
        View {
            dependent_thoroughfare: 8,
            ..in_town()
        },
        View {
            descriptor: 3,
            ..in_town()
        },
        View {
            outward: "EC1N".to_string(),
            inward: "2AA".to_string(),
            ..in_lane()
        },
        View {
            outward: "W1A".to_string(),
            inward: "1HQ".to_string(),
            building: 2,
            ..in_town()
        },
    ]
}

/// The pair, its views numbered by their address keys.
pub fn pair() -> Pair {
    let mut views = premises(in_lane());
    views.extend(premises(in_town()));
    views.extend(others());
    let timed = |view: View| View {
        time: view.address_key,
        ..view
    };
    Pair::new(rows(), numbered(views).map(timed).collect())
}

/// The views, numbered by their address keys, with suffixes in the order of these;
/// a large user's is always 1A.
fn numbered(views: Vec<View>) -> impl Iterator<Item = View> {
    let views = views.into_iter().zip(1..);
    views.map(|(view, address_key)| View {
        address_key,
        suffix: match view.postcode_type {
            b'L' => nth_suffix(1),
            _ => nth_suffix(address_key),
        },
        ..view
    })
}

/// The pair without the views that are refused a label, so that every code has
/// a pack.
pub fn labelled() -> Pair {
    let all = pair();
    let numbered = (1..).zip(&all.views);
    let labelled = numbered.filter(|(view, _)| label_of(&all.table, &all.points, *view).is_ok());
    let views = labelled.map(|(_, view)| view.clone()).collect();
    Pair::new(rows(), views)
}

/// The names of the files of `samples/main`, in the set's order.
pub const MAIN_NAMES: [&str; 7] = [
    "locality",
    "thoroughfare",
    "descriptor",
    "building",
    "subbuilding",
    "organisation",
    "address",
];

/// The Mainfile set in `samples/main`. Its codes in file order: AB1 with every
/// row of the table of premises, AB10 with every organisation, AB2 with what is
/// refused.
pub fn main_set() -> MainSet {
    let small = |key, name, department| Organisation::new(b'S', key, name, department);
    let large = |key, name, department| Organisation::new(b'L', key, name, department);
    let organisations = vec![
        large(6, "", ""),
        large(7, "GRID OFFICE", "METERS"),
        large(8, "", "STORES"),
        small(5, "BAY BATTERIES", ""),
        small(6, "BAY BATTERIES", "STORES"),
    ];
    let mut addresses = premises(in_lane());
    addresses.extend(premises(in_town()));
    addresses.extend(streets());
    let addresses = in_code("AB1", addresses)
        .chain(in_code("AB10", with_organisations()))
        .chain(in_code("AB2", refused()))
        .collect();
    MainSet::new(rows(), organisations, addresses)
}

/// The views in a code, numbered by their address keys.
fn in_code(outward: &str, views: Vec<View>) -> impl Iterator<Item = View> + '_ {
    numbered(views).map(move |view| View {
        outward: outward.to_string(),
        ..view
    })
}

/// Dependent thoroughfares and localities of each depth.
fn streets() -> Vec<View> {
    vec![
        View {
            locality: 3,
            dependent_thoroughfare: 8,
            dependent_descriptor: 4,
            building_number: 5,
            ..in_lane()
        },
        View {
            locality: 3,
            building: 2,
            ..in_town()
        },
        View {
            locality: 2,
            thoroughfare: 9,
            building_number: 12,
            ..in_town()
        },
        View {
            locality: 2,
            dependent_thoroughfare: 8,
            ..in_lane()
        },
    ]
}

/// Small users with an organisation, two of them with the same, and without;
/// large users with and without names and PO boxes, one of them with an
/// organisation key of its own. A large user's row has its address key.
fn with_organisations() -> Vec<View> {
    let small = |organisation_key| View {
        organisation_key,
        indicator: b'Y',
        ..in_lane()
    };
    let large = |organisation_key, po_box: &str| View {
        postcode_type: b'L',
        organisation_key,
        po_box: po_box.to_string(),
        ..in_lane()
    };
    vec![
        small(0),
        small(5),
        small(5),
        small(6),
        View {
            po_box: "HK860".to_string(),
            ..small(6)
        },
        large(0, "70"),
        large(5, "61"),
        large(0, ""),
    ]
}

/// Each missing row, fields 1 to 8, a locality key of zero, and each forbidden
/// combination.
fn refused() -> Vec<View> {
    let everything = View {
        dependent_thoroughfare: 8,
        dependent_descriptor: 4,
        building: 1,
        sub_building: 2,
        organisation_key: 5,
        ..in_lane()
    };
    let others: [Change; 2] = [|view| view.postcode_type = b'L', |view| view.locality = 0];
    let forbidden = FORBIDDEN.map(|(change, _)| change);
    let changed = MISSING
        .iter()
        .chain(&others)
        .chain(&forbidden)
        .map(|change| {
            let mut view = everything.clone();
            change(&mut view);
            view
        });
    changed.collect()
}

/// Rows that no view gives: with a UDPRN, with padding and leading zeros and without
/// an indicator, with every field, and two that are refused a label.
const BY_HAND: [&str; 5] = [
    "AB1 9ZZ,HARTWELL BAY,,,QUARRY LANE,,3,,,,,BAY BATTERIES,12345678,S,Y,2B",
    "AB1 9ZZ,HARTWELL BAY  , ,,QUARRY LANE ,,0012,,,,,,,S,,2D",
    "EC1N 2AA,HARTWELL BAY,NORTH END,MILL GREEN,QUARRY LANE,KILN COURT,0000,110-114,ATTIC FLAT,70,\
     METERS,GRID OFFICE,99999999,L, ,1A",
    "AB1 9ZZ,HARTWELL BAY,,,QUARRY LANE,,,,FLAT 1,,,,,S, ,2E",
    "AB1 9ZZ,HARTWELL BAY,,,,KILN COURT,,,,,,,,S, ,2F",
];

/// The CSV file in `samples/rows.csv`: the rows of the pair's views, but of those
/// that are refused one, and behind them those by hand.
pub fn csv() -> Vec<u8> {
    let Pair {
        table,
        points,
        views,
        ..
    } = pair();
    let mut rows = Vec::new();
    for view in 1..=views.len() as u64 {
        let mut out = [0; 499];
        if let Ok(length) = row(&table, &points, view, &mut out) {
            rows.extend(&out[..length]);
        }
    }
    for row in BY_HAND {
        rows.extend(row.bytes().chain(*b"\r\n"));
    }
    rows
}

/// The worked pair as somebody edited it, in `samples/archived`: spaces for the
/// identifiers of the table file and for that of the point file's trailer.
pub fn archived() -> Pair {
    let mut pair = worked_pair();
    space_table(&mut pair.table, &[End::Header, End::Trailer]);
    space_points(&mut pair.points, &[End::Trailer]);
    pair
}

/// Two months of a depot, in `samples/book/first` and `samples/book/second`. In the
/// second one delivery point goes, one is respelt, one comes, and one moves to
/// another postcode with something else between its B and its C.
pub fn months() -> [Pair; 2] {
    [first_month(), second_month()]
}

fn first_month() -> Pair {
    let views = vec![
        known(1, b'I', numbered_in_lane(3)),
        known(
            2,
            b'I',
            View {
                building: 1,
                ..in_lane()
            },
        ),
        known(3, b'I', in_lane().small_user(5, "BAY BATTERIES", "")),
        known(4, b'I', in_town().large_user("GRID OFFICE", "METERS")),
        known(5, b'I', numbered_in_lane(12)),
    ];
    Pair::new(rows(), views)
}

fn second_month() -> Pair {
    let batteries = |name| in_lane().small_user(5, name, "");
    let at = |outward: &str, inward: &str, view: View| View {
        outward: outward.to_string(),
        inward: inward.to_string(),
        ..view
    };
    // What happens at one time stands as the postcodes rise.
    let views = vec![
        known(2, b'D', in_lane()),
        known(3, b'B', batteries("BAY BATTERIES")),
        known(3, b'C', batteries("BAY STORAGE")),
        known(5, b'B', numbered_in_lane(12)),
        known(5, b'C', at("W1A", "1HQ", numbered_in_lane(12))),
        View {
            time: 5,
            ..known(6, b'I', at("EC1N", "2AA", numbered_in_lane(7)))
        },
        known(7, b'I', numbered_in_lane(9)),
    ];
    let later = |view: View| View {
        date: view.date + 100,
        ..view
    };
    Pair::new(rows(), views.into_iter().map(later).collect())
}

fn numbered_in_lane(building_number: u32) -> View {
    View {
        building_number,
        ..in_lane()
    }
}

/// A view of the delivery point with that address key, at a time of its own.
fn known(address_key: u32, letter: u8, view: View) -> View {
    View {
        time: address_key,
        address_key,
        letter,
        suffix: nth_suffix(address_key),
        ..view
    }
}

/// The book in `samples/book/depot.book`, kept through both months.
pub fn book() -> Vec<u8> {
    let mut book = vec![0; 86_530];
    for month in months() {
        for view in 1..=month.views.len() as u64 {
            // One that is refused leaves the book as it was.
            let _ = event(&mut book, &month.points, view);
        }
    }
    book
}

/// The packs in `samples/packs` by their names without `.pack`, the same for each
/// edition: three codes of the sample views, document 01's pack, a code without
/// views, and one that was drafted by hand.
pub const KEPT: [&str; 6] = ["AB1", "DN55", "EC1N", "W1A", "by-hand", "worked"];

/// The folder of the kept packs, and of what they have to print.
pub fn packs() -> PathBuf {
    Path::new(env!("CARGO_MANIFEST_DIR")).join("../../samples/packs")
}

/// A kept pack of an edition.
pub fn kept(edition: Edition, name: &str) -> Vec<u8> {
    let folder = packs().join(format!("edition{}", edition.number));
    fs::read(folder.join(format!("{name}.pack"))).expect("a kept pack")
}
