//! Two files for a case: mutated ones, and others made by hand, with a record
//! that is malformed, damaged at a place, with a view that cannot be printed, or
//! as long as they may be and longer.

use crate::{malformed, mutate};
use paper::make::{self, Pair, Place, Rng, TableRow, View};

/// One case in so many has a long file, the first one too.
const LONG: u64 = 500;

/// The most records of a file.
const MOST_RECORDS: usize = 20_000;

/// Two files and what is asked of them.
pub struct Files {
    /// The files before they were changed.
    pub pair: Pair,
    pub table: Vec<u8>,
    pub points: Vec<u8>,
    pub code: Vec<u8>,
    pub view: u64,
    /// A number of a live view in the code.
    pub nth: u64,
}

/// The files of a case.
pub fn of_case(rng: &mut Rng, number: u64) -> Files {
    match number % 8 {
        _ if number % LONG == 1 => long(rng, number / LONG),
        0 | 4 => refused_view(rng, number / 4),
        2 | 6 => malformed(rng, number / 4),
        3 => damaged(rng),
        _ => mutated(rng),
    }
}

/// These files with a code and numbers, mostly of views that there are.
fn asked(rng: &mut Rng, pair: Pair) -> Files {
    let code = code_of(rng, &pair);
    let views = pair.views.iter();
    let live = views.filter(|view| view.is_live() && make::padded(&view.outward, 4) == code);
    let nth = number_of(rng, live.count());
    Files {
        table: pair.table.clone(),
        points: pair.points.clone(),
        view: number_of(rng, pair.views.len()),
        code,
        nth,
        pair,
    }
}

/// Mostly a code of the pair, sometimes another or a malformed one.
fn code_of(rng: &mut Rng, pair: &Pair) -> Vec<u8> {
    match rng.below(8) {
        0 => make::bad_outward(rng),
        1 => make::outward(rng),
        _ if pair.views.is_empty() => b"AB1 ".to_vec(),
        _ => make::padded(&rng.pick(&pair.views).outward, 4),
    }
}

/// Mostly a number up to the most, sometimes a low or a very high one.
pub fn number_of(rng: &mut Rng, most: usize) -> u64 {
    match rng.below(10) {
        0 => u64::MAX - rng.below(2) as u64,
        1 => 1 << rng.below(64),
        2..=4 => rng.below(12) as u64,
        _ => 1 + rng.below(most) as u64,
    }
}

/// Accepted files, mutated by structure and by bytes, or left as they are; some of
/// them archived ones.
fn mutated(rng: &mut Rng) -> Files {
    let most = *rng.pick(&[4, 12, 30, 60, 200]);
    let pair = make::pair(rng, most);
    let mut files = asked(rng, pair);
    if rng.one_in(8) {
        let archived = make::archived(rng, &files.pair);
        (files.table, files.points) = (archived.table, archived.points);
    }
    if rng.one_in(2) {
        mutate::file(rng, &mut files.table, 169);
    }
    if rng.one_in(2) {
        mutate::file(rng, &mut files.points, 168);
    }
    files
}

/// Accepted files, in one of which one record is malformed, in turn in each way.
fn malformed(rng: &mut Rng, turn: u64) -> Files {
    let (pair, table, points) = malformed::pair(rng, turn);
    Files {
        table,
        points,
        ..asked(rng, pair)
    }
}

/// Accepted files, one of which is damaged so that it is refused with some
/// number at some place.
fn damaged(rng: &mut Rng) -> Files {
    let pair = make::pair(rng, 60);
    let mut files = asked(rng, pair);
    let number = *rng.pick(&[1, 2, 3, 5, 6]);
    let place = *rng.pick(&Place::ALL);
    if rng.one_in(2) {
        let damaged = make::damaged_table(rng, number, place);
        files.table = damaged.map_or(files.table, |damaged| damaged.file);
    } else {
        let damaged = make::damaged_points(rng, number, place);
        files.points = damaged.map_or(files.points, |damaged| damaged.file);
    }
    files
}

/// A key that has rows of every type, and one that has none in force.
const FINE: u32 = 99_999_998;
const GONE: u32 = 99_999_997;

/// Accepted files with a live view that is refused, in turn with each rule of
/// refusal 8 and each field of refusal 9; that view is asked for.
fn refused_view(rng: &mut Rng, turn: u64) -> Files {
    let Pair {
        mut rows,
        mut views,
        ..
    } = make::pair(rng, 60);
    rows.push(TableRow::locality(FINE, "HOLT", "", ""));
    rows.push(TableRow::thoroughfare(FINE, "HIGH"));
    if rng.one_in(2) {
        rows.extend(gone_rows());
    }
    let code = make::outward(rng);
    let mut view = View {
        outward: String::from_utf8_lossy(code.trim_ascii_end()).into_owned(),
        address_key: 99_999_999,
        locality: FINE,
        ..View::default()
    };
    refuse(&mut view, turn % 10);
    views.push(view.clone());
    let pair = Pair::new(rows, views);
    let place = |is_counted: &dyn Fn(&View) -> bool| {
        let counted = pair.views.iter().filter(|view| is_counted(view));
        1 + counted.take_while(|counted| **counted != view).count() as u64
    };
    Files {
        view: place(&|_| true),
        nth: place(&|other| other.is_live() && other.outward == view.outward),
        table: pair.table.clone(),
        points: pair.points.clone(),
        code,
        pair,
    }
}

/// Rows for the key that has none in force: each was deleted.
fn gone_rows() -> Vec<TableRow> {
    let rows = [
        TableRow::locality(GONE, "HOLT", "", ""),
        TableRow::thoroughfare(GONE, "HIGH"),
        TableRow::descriptor(GONE, "LANE"),
        TableRow::building(GONE, "ROSE COTTAGE"),
        TableRow::sub_building(GONE, "FLAT 1"),
    ];
    let deleted = |row| TableRow {
        letter: b'D',
        ..row
    };
    rows.map(deleted).to_vec()
}

/// Gives a view that could be printed keys with which it cannot.
fn refuse(view: &mut View, way: u64) {
    match way {
        0 => view.locality = GONE,
        1 => view.thoroughfare = GONE,
        2 => (view.thoroughfare, view.descriptor) = (FINE, GONE),
        3 => (view.thoroughfare, view.dependent_thoroughfare) = (FINE, GONE),
        4 => {
            (view.thoroughfare, view.dependent_thoroughfare) = (FINE, FINE);
            view.dependent_descriptor = GONE;
        }
        5 => view.building = GONE,
        6 => (view.building_number, view.sub_building) = (1, GONE),
        7 => view.sub_building = GONE,
        8 => view.dependent_thoroughfare = FINE,
        _ => view.descriptor = GONE,
    }
}

/// Files of which one has as many records as it may have, or one more: in turn
/// each file of each length.
fn long(rng: &mut Rng, turn: u64) -> Files {
    let records = MOST_RECORDS + (turn / 2 % 2) as usize;
    let pair = match turn % 2 {
        0 => make::exact_pair(rng, records, 30),
        _ => make::exact_pair(rng, 30, records),
    };
    asked(rng, pair)
}
