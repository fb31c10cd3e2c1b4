//! What the calls are asked about.

use paper::make::{exact_pair, full_draft, Follower, PackDraft, Pair, Rng, TableRow, View, BUILT};
use ttw::ask;

/// The outward code that most views of the files have.
pub const CODE: &[u8] = b"AB1 ";

/// The bytes of a fresh label buffer.
pub const LABEL: usize = 499;

/// How many labels a run asks for: those of a practice round.
pub const ROUND: u64 = 40;

/// A pair of files, and the pack of its commonest code; the same pair with texts
/// that rows can carry, and its rows.
pub struct Input {
    pub pair: Pair,
    pub pack: Vec<u8>,
    pub carried: Pair,
    pub csv: Vec<u8>,
    /// The last view, and the last point of the pack.
    pub last_view: u64,
    pub last_point: u64,
}

impl Input {
    /// Files of so many records each.
    pub fn new(records: usize) -> Input {
        let pair = exact_pair(&mut Rng::new(8), records, records);
        let pack = ask::build(&pair.table, &pair.points, CODE, 0).expect("a pack");
        let last_point = ask::pack(&pack).expect("it opens");
        let carried = pair.clone().carried();
        Input {
            last_view: pair.views.len() as u64,
            last_point,
            csv: rows_of(&carried),
            carried,
            pair,
            pack,
        }
    }

    pub fn table(&self) -> &[u8] {
        &self.pair.table
    }

    pub fn points(&self) -> &[u8] {
        &self.pair.points
    }

    pub fn csv(&self) -> &[u8] {
        &self.csv
    }

    /// Where the last round begins, of the views and of the points; a file of rows
    /// has one for each view.
    pub fn first_view(&self) -> u64 {
        self.last_view - ROUND + 1
    }

    pub fn first_point(&self) -> u64 {
        self.last_point - ROUND + 1
    }
}

/// The rows of all views.
fn rows_of(pair: &Pair) -> Vec<u8> {
    let mut rows = vec![0; LABEL * pair.views.len()];
    let run = ask::csv_rows(&pair.table, &pair.points, 1, u64::MAX, &mut rows).expect("files");
    assert_eq!(run.labels, pair.views.len() as u64, "every view has a row");
    rows.truncate(run.bytes);
    rows
}

/// A pack of that many localities and points, all of whose offsets point at the
/// last rows: the hardest to open for a program that walks from the start.
pub fn far_pack(count: usize) -> Vec<u8> {
    let PackDraft {
        edition,
        rows,
        points,
        outward,
    } = full_draft(BUILT);
    let locality = &rows[1];
    let others = [2, 4, 6, 7, 8].map(|row| rows[row].clone());
    let mut point = points[0].clone();
    point.rows = [0, 1, 2, 1, 2, 3, 4, 5].map(|row| Some(count - 1 + row));
    let mut draft = PackDraft {
        edition,
        rows: vec![locality.clone(); count],
        points: vec![point; count],
        outward,
    };
    draft.rows.extend(others);
    draft.bytes()
}

/// A pair of 20,000 records whose views have so many codes by turns, at most
/// 47,520: AA10 to AA99, AB10 and so on.
pub fn pair_of_codes(count: usize) -> Pair {
    let (first, second) = (b"ABCDEFGHIJKLMNOPRSTUWY", b"ABCDEFGHJKLMNOPQRSTUVWXY");
    let code = |n: usize| {
        let letters = [first[n / 90 / second.len()], second[n / 90 % second.len()]];
        format!("{}{}", String::from_utf8_lossy(&letters), 10 + n % 90)
    };
    let Pair { rows, views, .. } = exact_pair(&mut Rng::new(8), 20_000, 20_000);
    let coded = |(n, view): (usize, View)| View {
        outward: code(n % count),
        ..view
    };
    Pair::new(rows, views.into_iter().enumerate().map(coded).collect())
}

/// A pair of 20,000 records in whose table file one key comes 19,997 times, with
/// 15,999 views: the hardest for a search that goes on from the first of them.
pub fn pair_of_one_key() -> Pair {
    let street = |n: u32| TableRow {
        date: 20_000_101 + n,
        letter: b'C',
        ..TableRow::thoroughfare(7, "QUARRY LANE")
    };
    let mut rows = vec![TableRow::locality(1, "HARTWELL BAY", "", "")];
    rows.extend((0..19_997).map(street));
    Pair::new(rows, (0..15_999).map(view_of_one_street).collect())
}

/// A view of that street; every fourth has an organisation.
fn view_of_one_street(n: u32) -> View {
    let organised = n % 4 == 3;
    View {
        address_key: 1 + n,
        organisation_key: u32::from(organised),
        locality: 1,
        thoroughfare: 7,
        building_number: 1 + n % 200,
        follower: organised.then(|| Follower {
            record_type: 2,
            organisation: "BAKER AND SONS".to_string(),
            department: String::new(),
        }),
        ..View::default()
    }
}
