//! Files with one malformed record: each field of each kind of record at fault
//! in every way that `ttw-paper` knows, one way after the other.

use paper::make::{exact_pair, point_breaks, table_breaks, Break, Pair, Rng, View};
use std::collections::BTreeSet;
use std::sync::LazyLock;

/// A way in which a record is malformed.
struct Way {
    /// 1 the table file, 2 the point file.
    file: u8,
    record_type: u8,
    change: Break,
}

static WAYS: LazyLock<Vec<Way>> = LazyLock::new(|| {
    let way = |file, record_type| {
        move |change| Way {
            file,
            record_type,
            change,
        }
    };
    let table = (1..=5).flat_map(|kind| table_breaks(kind).into_iter().map(way(1, kind)));
    let points = (1..=3).flat_map(|kind| point_breaks(kind).into_iter().map(way(2, kind)));
    table.chain(points).collect()
});

/// Bytes of an organisation record's front: where they change, its delivery
/// point lacks it, and that is found first.
const FRONT: usize = 42;

/// The bytes at which a record of a file is at fault in one of these ways.
pub fn bytes(file: u8) -> BTreeSet<u64> {
    let told = |way: &&Way| way.file == 1 || way.record_type == 1 || way.change.fault > FRONT;
    let ways = WAYS.iter().filter(|way| way.file == file).filter(told);
    ways.map(|way| way.change.fault as u64).collect()
}

/// A pair that has records of every type, accepted, and the two files of which
/// one is malformed.
pub fn pair(rng: &mut Rng, turn: u64) -> (Pair, Vec<u8>, Vec<u8>) {
    let pair = every_type(rng);
    let (mut table, mut points) = (pair.table.clone(), pair.points.clone());
    let way = &WAYS[turn as usize % WAYS.len()];
    let (file, width, type_at) = match way.file {
        1 => (&mut table, 169, 0),
        _ => (&mut points, 168, 41),
    };
    let wanted = b'0' + way.record_type;
    let last = file.len() / width - 1;
    let is_such = |place: &usize| file[place * width + type_at] == wanted;
    let places: Vec<usize> = (1..last).filter(is_such).collect();
    let place = *rng.pick(&places) * width;
    way.change.apply(&mut file[place..place + width]);
    (pair, table, points)
}

/// An accepted pair with records of every type.
fn every_type(rng: &mut Rng) -> Pair {
    let (rows, points) = (7 + rng.below(20), 2 + rng.below(20));
    let Pair {
        rows, mut views, ..
    } = exact_pair(rng, rows, points);
    let view = |address_key| View {
        address_key,
        locality: 1,
        ..View::default()
    };
    views.push(view(99_999_996));
    views.push(view(99_999_997).small_user(7, "LEDA ENGINEERING LTD", "STORES"));
    views.push(view(99_999_998).large_user("", "POST ROOM"));
    Pair::new(rows, views)
}
