use super::texts::{descriptor, organisation, place, po_box, premises};
use super::{
    inward, outward, point_file, space_points, space_table, suffix, table_file, End, Follower, Rng,
    TableRow, View,
};

/// A table file and a point file that are both accepted, and what they were
/// made from, in file order.
#[derive(Clone, Debug)]
pub struct Pair {
    pub rows: Vec<TableRow>,
    pub views: Vec<View>,
    pub table: Vec<u8>,
    pub points: Vec<u8>,
}

impl Pair {
    /// The pair of these rows and views, brought into file order. Of rows with
    /// the same first 24 bytes, and of views with the same first 41, one is kept.
    pub fn new(mut rows: Vec<TableRow>, mut views: Vec<View>) -> Pair {
        rows.sort_by_key(TableRow::sequence);
        rows.dedup_by_key(|row| row.sequence());
        views.sort_by_cached_key(sequence);
        views.dedup_by_key(|view| sequence(view));
        let table = table_file(&rows);
        let points = point_file(&views);
        Pair {
            rows,
            views,
            table,
            points,
        }
    }

    /// The pair with texts that a row of CSV PAF can carry: without commas and
    /// quotes, and with descriptors that leave room for any name.
    pub fn carried(mut self) -> Pair {
        for row in &mut self.rows {
            row.texts.iter_mut().for_each(carry);
            if row.row_type == 3 {
                row.texts[0].truncate(19);
            }
        }
        for view in &mut self.views {
            carry(&mut view.po_box);
            if let Some(follower) = &mut view.follower {
                carry(&mut follower.organisation);
                carry(&mut follower.department);
            }
        }
        Pair::new(self.rows, self.views)
    }
}

/// The files of a pair as an archive may have them: some of their four
/// identifiers, one at least, are spaces.
pub fn archived(rng: &mut Rng, pair: &Pair) -> Pair {
    let mut archived = pair.clone();
    let edited = rng.below(3);
    if edited != 0 {
        space_table(&mut archived.table, End::chosen(rng));
    }
    if edited != 1 {
        space_points(&mut archived.points, End::chosen(rng));
    }
    archived
}

fn carry(text: &mut String) {
    *text = text.replace([',', '"'], "-");
}

fn sequence(view: &View) -> Vec<u8> {
    view.record()[..41].to_vec()
}

/// The pair of document 01's run.
pub fn worked_pair() -> Pair {
    let rows = vec![
        TableRow::locality(1, "HARTWELL BAY", "", ""),
        TableRow::thoroughfare(7, "QUARRY"),
        TableRow::descriptor(3, "LANE"),
        TableRow::building(9, "110-114"),
        TableRow::sub_building(4, "ATTIC FLAT"),
    ];
    let first = View {
        locality: 1,
        thoroughfare: 7,
        descriptor: 3,
        building: 9,
        sub_building: 4,
        ..View::default()
    };
    let second = View {
        date: first.date + 1,
        letter: b'D',
        building: 10,
        ..first.clone()
    };
    Pair::new(rows, vec![first, second])
}

/// A random accepted pair of at most so many records a file (at least 2).
/// Some keys come twice. About half of the pairs have views with missing keys
/// and forbidden combinations.
pub fn pair(rng: &mut Rng, most_records: usize) -> Pair {
    let room = most_records.saturating_sub(2);
    let row_count = rng.below(room + 1);
    let view_count = rng.below(room / 2 + 1);
    let highest_key = *rng.pick(&[3, 8, 40, 99_999_999]);
    let mut rows: Vec<TableRow> = (0..row_count).map(|_| row(rng, highest_key)).collect();
    if rng.one_in(2) {
        add_one_of_each(rng, &mut rows);
        rows.truncate(room);
    }
    let one_fault_in = *rng.pick(&[0, 0, 2, 10]);
    add_histories(rng, &mut rows, room, one_fault_in > 0);
    let codes: Vec<String> = (0..1 + rng.below(4)).map(|_| text(outward(rng))).collect();
    let views = (0..view_count)
        .map(|_| View {
            outward: rng.pick(&codes).clone(),
            ..view(rng, &rows, one_fault_in)
        })
        .collect();
    let mut pair = Pair::new(rows, views);
    change_unread_bytes(rng, &mut pair);
    pair
}

/// A pair of exactly so many records a file (2 to 20,000), without missing keys
/// or forbidden combinations where the table file has ten records or more. Most
/// of its views are live and of the outward code AB1.
pub fn exact_pair(rng: &mut Rng, table_records: usize, point_records: usize) -> Pair {
    let rows = keyed_rows(rng, table_records.saturating_sub(2));
    let codes = ["AB1", "AB1", "AB1", "AB1", "AB10", "B1A"];
    let views = exact_views(rng, &rows, point_records, &codes);
    Pair::new(rows, views)
}

/// A pair of about so many table records and of exactly so many point records,
/// too long for the library where there are more than 20,000. Some keys come
/// twice; where keys may end, some of these are left without a row in force. A
/// fifth of its views are of the outward code AB1, the others of about so many
/// codes.
pub fn long_pair(
    rng: &mut Rng,
    table_records: usize,
    point_records: usize,
    codes: usize,
    may_end: bool,
) -> Pair {
    let room = table_records.saturating_sub(2);
    let mut rows = keyed_rows(rng, room * 3 / 4);
    add_histories(rng, &mut rows, room, may_end);
    let mut codes: Vec<String> = (0..codes).map(|_| text(outward(rng))).collect();
    let often = codes.len() / 4;
    codes.extend(vec!["AB1".to_string(); often]);
    let views = exact_views(rng, &rows, point_records, &codes);
    Pair::new(rows, views)
}

/// So many rows, of each type in turn, each with a key of its own.
fn keyed_rows(rng: &mut Rng, count: usize) -> Vec<TableRow> {
    let row = |index: usize| row_of(rng, 1 + (index % 5) as u8, 1 + (index as u32) * 3);
    (0..count).map(row).collect()
}

/// Views of these rows and codes that make exactly so many records.
fn exact_views(
    rng: &mut Rng,
    rows: &[TableRow],
    point_records: usize,
    codes: &[impl AsRef<str>],
) -> Vec<View> {
    let mut views = Vec::new();
    let mut left = point_records.saturating_sub(2);
    while left > 0 {
        let mut next = view(rng, rows, 0);
        next.address_key = 1 + views.len() as u32;
        next.outward = rng.pick(codes).as_ref().to_string();
        next.letter = *rng.pick(b"IIICCBD");
        if left == 1 {
            without_follower(&mut next);
        }
        left -= next.records().len();
        views.push(next);
    }
    views
}

/// At least two rows of each type, so that a view need not be refused.
fn add_one_of_each(rng: &mut Rng, rows: &mut Vec<TableRow>) {
    for row_type in 1..=5 {
        for key in 1..=2 {
            rows.insert(0, row_of(rng, row_type, key));
        }
    }
}

fn row(rng: &mut Rng, highest_key: u32) -> TableRow {
    let row_type = rng.within(1, 5) as u8;
    let key = rng.within(1, highest_key);
    row_of(rng, row_type, key)
}

pub(super) fn row_of(rng: &mut Rng, row_type: u8, key: u32) -> TableRow {
    let row = match row_type {
        1 => locality(rng, key),
        2 => TableRow::thoroughfare(key, &place(rng, 60)),
        3 => TableRow::descriptor(key, &descriptor(rng, 20)),
        4 => TableRow::building(key, &premises(rng, 50)),
        _ => TableRow::sub_building(key, &premises(rng, 30)),
    };
    TableRow {
        date: rng.within(0, 99_999_999),
        time: rng.within(0, 999_999),
        letter: *rng.pick(b"CI "),
        ..row
    }
}

/// Gives some rows a history, while there is room.
fn add_histories(rng: &mut Rng, rows: &mut Vec<TableRow>, room: usize, may_end: bool) {
    for index in 0..rows.len() {
        if rows.len() < room && rng.one_in(3) {
            let row = rows[index].clone();
            rows.push(again(rng, &row, may_end));
        }
    }
}

/// Another row for the key of a row, in other words. It leaves the key without a
/// row in force only where keys may end.
fn again(rng: &mut Rng, row: &TableRow, may_end: bool) -> TableRow {
    let other = row_of(rng, row.row_type, row.key);
    match rng.below(if may_end { 5 } else { 4 }) {
        // inserted, then respelt
        0 => TableRow {
            letter: b'I',
            ..before(rng, row, other)
        },
        // deleted, then inserted again
        1 => TableRow {
            letter: b'D',
            ..before(rng, row, other)
        },
        // before and after a change, at one time
        2 if row.letter != b' ' => TableRow {
            date: row.date,
            time: row.time,
            letter: b'B',
            ..other
        },
        // whichever is the later
        2 | 3 => other,
        // inserted, then deleted
        _ => TableRow {
            date: 99_999_999,
            letter: *rng.pick(b"BD"),
            ..other
        },
    }
}

/// A row at an earlier time than another, on the same day where there is one.
fn before(rng: &mut Rng, row: &TableRow, other: TableRow) -> TableRow {
    if row.time > 0 && rng.one_in(2) {
        TableRow {
            date: row.date,
            time: row.time - 1,
            ..other
        }
    } else {
        TableRow {
            date: row.date.saturating_sub(1),
            ..other
        }
    }
}

fn locality(rng: &mut Rng, key: u32) -> TableRow {
    let town = place(rng, 30);
    let dependent = place(rng, 35);
    let double_dependent = place(rng, 35);
    match rng.below(3) {
        0 => TableRow::locality(key, &town, "", ""),
        1 => TableRow::locality(key, &town, &dependent, ""),
        _ => TableRow::locality(key, &town, &dependent, &double_dependent),
    }
}

/// A random view of these rows. Once in so many times its keys are chosen
/// without regard to what may stand together and to which rows there are; 0 is
/// never.
pub(super) fn view(rng: &mut Rng, rows: &[TableRow], one_fault_in: usize) -> View {
    let careless = rng.one_in(one_fault_in);
    let mut view = View {
        date: rng.within(20_110_901, 20_110_903),
        time: rng.within(101_501, 101_503),
        inward: text(inward(rng)),
        suffix: text(suffix(rng)),
        address_key: rng.within(0, 99_999_999),
        letter: *rng.pick(b"BCDIII"),
        locality: key(rng, rows, 1),
        households: rng.within(0, 9_999),
        concatenation: *rng.pick(b"Y "),
        po_box: po_box(rng),
        indicator: *rng.pick(b"Y "),
        reason: rng.within(0, 99),
        ..View::default()
    };
    if careless {
        careless_keys(rng, rows, &mut view);
    } else {
        careful_keys(rng, rows, &mut view);
    }
    add_organisation(rng, &mut view);
    view
}

/// Keys that have rows, in combinations that rule 8 allows.
fn careful_keys(rng: &mut Rng, rows: &[TableRow], view: &mut View) {
    if rng.one_in(2) {
        view.building_number = building_number(rng);
    }
    if rng.one_in(2) {
        view.building = key(rng, rows, 4);
    }
    if rng.one_in(2) && (view.building > 0 || view.building_number > 0) {
        view.sub_building = key(rng, rows, 5);
    }
    if !rng.one_in(4) {
        view.thoroughfare = key(rng, rows, 2);
    }
    if view.thoroughfare > 0 && rng.one_in(2) {
        view.descriptor = key(rng, rows, 3);
    }
    if view.thoroughfare > 0 && rng.one_in(3) {
        view.dependent_thoroughfare = key(rng, rows, 2);
    }
    if view.dependent_thoroughfare > 0 && rng.one_in(2) {
        view.dependent_descriptor = key(rng, rows, 3);
    }
}

/// Keys of any kind: zero, with a row, without one.
fn careless_keys(rng: &mut Rng, rows: &[TableRow], view: &mut View) {
    if rng.one_in(3) {
        view.building_number = building_number(rng);
    }
    view.locality = careless_key(rng, rows, 1);
    view.thoroughfare = careless_key(rng, rows, 2);
    view.descriptor = careless_key(rng, rows, 3);
    view.dependent_thoroughfare = careless_key(rng, rows, 2);
    view.dependent_descriptor = careless_key(rng, rows, 3);
    view.building = careless_key(rng, rows, 4);
    view.sub_building = careless_key(rng, rows, 5);
}

fn careless_key(rng: &mut Rng, rows: &[TableRow], row_type: u8) -> u32 {
    match rng.below(12) {
        0 => rng.within(1, 99_999_999),
        1 => rng.within(0, 9),
        2..=4 => 0,
        _ => key(rng, rows, row_type),
    }
}

/// The key of a row of that type; zero where there is none.
fn key(rng: &mut Rng, rows: &[TableRow], row_type: u8) -> u32 {
    for _ in 0..50 {
        if rows.is_empty() {
            return 0;
        }
        let row = rng.pick(rows);
        if row.row_type == row_type {
            return row.key;
        }
    }
    0
}

fn building_number(rng: &mut Rng) -> u32 {
    match rng.below(3) {
        0 => rng.within(1, 9),
        1 => rng.within(1, 9_999),
        _ => *rng.pick(&[10, 100, 1_000, 9_999]),
    }
}

/// One view in three is a small user with an organisation, one in four a large
/// user.
fn add_organisation(rng: &mut Rng, view: &mut View) {
    let name = organisation(rng, 60);
    let department = match rng.below(3) {
        0 => organisation(rng, 60),
        _ => String::new(),
    };
    if rng.one_in(3) {
        view.organisation_key = *rng.pick(&[1, 7, 10_003, 99_999_999]);
        view.follower = Some(Follower {
            record_type: 2,
            organisation: name,
            department,
        });
    } else if rng.one_in(3) {
        view.postcode_type = b'L';
        view.organisation_key = *rng.pick(&[0, 0, 5]);
        view.follower = Some(Follower {
            record_type: 3,
            organisation: if rng.one_in(3) { String::new() } else { name },
            department,
        });
    }
}

fn without_follower(view: &mut View) {
    view.postcode_type = b'S';
    view.organisation_key = 0;
    view.follower = None;
}

/// Half of the files get other bytes in what isn't read: editions, fillers,
/// abbreviations, new postcodes; a quarter get identifiers of spaces.
fn change_unread_bytes(rng: &mut Rng, pair: &mut Pair) {
    if rng.one_in(2) {
        for (index, row) in pair.rows.iter().enumerate() {
            let filler = match row.row_type {
                1 => 24..69,
                2 => 84..169,
                3 => 44..169,
                4 => 74..169,
                _ => 54..169,
            };
            let start = (index + 1) * 169;
            fill(
                rng,
                &mut pair.table[start + filler.start..start + filler.end],
            );
        }
        fill(rng, &mut pair.table[17..169]);
        let trailer = pair.table.len() - 169;
        fill(rng, &mut pair.table[trailer + 17..]);
        change_unread_points(rng, pair);
    }
    if rng.one_in(4) {
        let both = [End::Header, End::Trailer];
        space_table(&mut pair.table, &both);
        space_points(&mut pair.points, &both);
    }
}

fn change_unread_points(rng: &mut Rng, pair: &mut Pair) {
    let last = pair.points.len() / 168;
    for (index, record) in pair.points.chunks_exact_mut(168).enumerate() {
        let filler = match record[41] {
            _ if index == 0 => 22..168,
            _ if index == last - 1 => 22..168,
            b'1' => 116..168,
            _ => 162..168,
        };
        fill(rng, &mut record[filler]);
    }
}

pub(super) fn fill(rng: &mut Rng, bytes: &mut [u8]) {
    for byte in bytes {
        *byte = rng.byte();
    }
}

pub(super) fn text(bytes: Vec<u8>) -> String {
    String::from_utf8_lossy(&bytes).trim_end().to_string()
}
