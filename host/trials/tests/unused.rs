//! Document 02, No. 13: rows that no view refers to change no label, no pack
//! and no refusal; nor do rows that are not in force (No. 3).

use paper::make::{self, Pair, Rng, TableRow, View};
use trials::packs::codes;
use ttw::ask;

/// The type and key of each row that a view refers to, rising.
fn used(views: &[View]) -> Vec<(u8, u32)> {
    let mut used: Vec<(u8, u32)> = views
        .iter()
        .flat_map(|view| {
            [
                (1, view.locality),
                (2, view.thoroughfare),
                (3, view.descriptor),
                (2, view.dependent_thoroughfare),
                (3, view.dependent_descriptor),
                (4, view.building),
                (5, view.sub_building),
            ]
        })
        .collect();
    used.sort();
    used.dedup();
    used
}

/// The pair's rows without those that no view refers to.
fn bare(pair: &Pair) -> Vec<TableRow> {
    let used = used(&pair.views);
    let mut rows = pair.rows.clone();
    rows.retain(|row| used.contains(&(row.row_type, row.key)));
    rows
}

/// The rows in force: of each key the last, unless its letter says that none is.
fn in_force(pair: &Pair) -> Vec<TableRow> {
    let mut rows = pair.rows.clone();
    rows.reverse();
    rows.dedup_by_key(|row| (row.row_type, row.key));
    rows.retain(TableRow::is_in_force);
    rows
}

/// A row that no view refers to.
fn stray(row_type: u8, key: u32) -> TableRow {
    match row_type {
        1 => TableRow::locality(key, "NOWHERE", "NO END", "NO GREEN"),
        2 => TableRow::thoroughfare(key, "NO ROAD"),
        3 => TableRow::descriptor(key, "NO LANE"),
        4 => TableRow::building(key, "NO HOUSE"),
        _ => TableRow::sub_building(key, "NO FLAT"),
    }
}

/// These and others, on both sides of each key, and of type and key crossed,
/// where no view refers to them.
fn crowded(pair: &Pair) -> Vec<TableRow> {
    let used = used(&pair.views);
    let near = used.iter().flat_map(|(row_type, key)| {
        let next = 1 + row_type % 5;
        [
            (*row_type, key.saturating_sub(1)),
            (*row_type, key + 1),
            (next, *key),
        ]
    });
    let free = near.filter(|row| !used.contains(row) && (1..=99_999_999).contains(&row.1));
    let mut rows = bare(pair);
    rows.extend(free.map(|(row_type, key)| stray(row_type, key)));
    rows
}

/// The table file of these rows, brought into order.
fn table_of(rows: Vec<TableRow>) -> Vec<u8> {
    Pair::new(rows, Vec::new()).table
}

/// How often a label and a pack were given under both tables, and how often
/// both were refused.
#[derive(Default, Debug)]
struct Given {
    labels: usize,
    packs: usize,
    refusals: usize,
}

impl Given {
    /// Fails where the pair answers anything else with another table file.
    fn compare(&mut self, pair: &Pair, other: &[u8]) {
        let (table, points) = (&pair.table, &pair.points);
        let views = ask::views(points).expect("an accepted file");
        for view in 0..=views + 1 {
            let label = ask::label(table, points, view);
            assert!(label == ask::label(other, points, view), "view {view}");
            self.labels += usize::from(label.is_ok());
            self.refusals += usize::from(label.is_err());
        }
        for code in codes(pair) {
            let pack = ask::build(table, points, &code, 0);
            assert!(pack == ask::build(other, points, &code, 0), "{code:?}");
            self.packs += usize::from(pack.is_ok());
            self.refusals += usize::from(pack.is_err());
        }
    }
}

#[test]
fn rows_taken_away_and_put_in_change_nothing() {
    let mut rng = Rng::new(13);
    let (mut given, mut fewer, mut more, mut shorter) = (Given::default(), 0, 0, 0);
    for _ in 0..300 {
        let pair = make::pair(&mut rng, 60);
        let (bare, crowded) = (table_of(bare(&pair)), table_of(crowded(&pair)));
        fewer += usize::from(bare.len() < pair.table.len());
        more += usize::from(crowded.len() > pair.table.len());
        given.compare(&pair, &bare);
        given.compare(&pair, &crowded);
        let last = table_of(in_force(&pair));
        shorter += usize::from(last.len() < pair.table.len());
        given.compare(&pair, &last);
    }
    println!("{given:?}, {fewer} with fewer rows, {more} with more");
    assert!(given.labels > 1000 && given.packs > 100 && given.refusals > 100);
    assert!(fewer > 50 && more > 50 && shorter > 50);
}
