use super::pairs::{fill, row_of, text, view};
use super::records::{highest_main_key, MAIN_FRAMES};
use super::texts::organisation;
use super::{main_file_of, nth_suffix, outward, Organisation, Pair, Rng, TableRow, View};
use crate::mainfile::Set;
use std::collections::BTreeMap;

/// A Mainfile set whose files are all accepted, and what they were made from,
/// in file order.
#[derive(Clone, Debug)]
pub struct MainSet {
    pub rows: Vec<TableRow>,
    pub organisations: Vec<Organisation>,
    /// Their dates, times, letters and followers count for nothing.
    pub addresses: Vec<View>,
    pub files: [Vec<u8>; 7],
}

impl MainSet {
    /// The set of these rows and addresses, brought into file order. Of those
    /// that would stand at the same place, the first is kept.
    pub fn new(
        mut rows: Vec<TableRow>,
        mut organisations: Vec<Organisation>,
        mut addresses: Vec<View>,
    ) -> MainSet {
        rows.sort_by_key(|row| (row.row_type, row.key));
        rows.dedup_by_key(|row| (row.row_type, row.key));
        organisations.sort_by_key(|row| (row.postcode_type, row.key));
        organisations.dedup_by_key(|row| (row.postcode_type, row.key));
        addresses.sort_by_cached_key(sequence);
        addresses.dedup_by_key(|address| sequence(address));
        let files = [1, 2, 3, 4, 5, 6, 7].map(|file| {
            let rows = rows.iter().filter(|row| row.row_type == file);
            let records: Vec<Vec<u8>> = match file {
                6 => organisations.iter().map(Organisation::record).collect(),
                7 => addresses.iter().map(View::address_record).collect(),
                _ => rows.map(TableRow::main_record).collect(),
            };
            main_file_of(file, &records)
        });
        MainSet {
            rows,
            organisations,
            addresses,
            files,
        }
    }

    /// The files as they are lent.
    pub fn set(&self) -> Set<'_> {
        self.files.each_ref().map(Vec::as_slice)
    }
}

/// Postcode, address key, organisation key.
fn sequence(address: &View) -> Vec<u8> {
    let record = address.address_record();
    [&record[..15], &record[69..77]].concat()
}

/// The key of the organisation row that an address needs: the guide's chapter 5
/// joins a small user by its organisation key, a large user by its address key.
pub fn joined_key(address: &View) -> Option<u32> {
    match (address.postcode_type, address.organisation_key) {
        (b'L', _) => Some(address.address_key),
        (_, 0) => None,
        (_, key) => Some(key),
    }
}

/// A random accepted set of at most so many records a file (at least 2). About
/// half of the sets have addresses with missing rows and forbidden combinations.
pub fn main_set(rng: &mut Rng, most_records: usize) -> MainSet {
    let room = most_records.saturating_sub(2);
    let one_fault_in = *rng.pick(&[0, 0, 2, 10]);
    let rows = random_rows(rng, room);
    let codes: Vec<String> = (0..1 + rng.below(4)).map(|_| text(outward(rng))).collect();
    let addresses: Vec<View> = (0..rng.below(room + 1))
        .map(|_| View {
            outward: rng.pick(&codes).clone(),
            ..address(rng, &rows, one_fault_in)
        })
        .collect();
    let mut organisations: Vec<Organisation> = addresses.iter().filter_map(joined).collect();
    if one_fault_in > 0 {
        organisations.retain(|_| !rng.one_in(6));
    }
    while organisations.len() < room && rng.one_in(2) {
        organisations.push(any_organisation(rng));
    }
    let mut set = MainSet::new(rows, organisations, addresses);
    change_unread_bytes(rng, &mut set);
    set
}

/// Up to so many rows of each type; often at least one, so that an address need
/// not be refused.
fn random_rows(rng: &mut Rng, room: usize) -> Vec<TableRow> {
    let highest = *rng.pick(&[3, 8, 40, 99_999_999]);
    let least = rng.below(2).min(room) as u32;
    let mut rows = Vec::new();
    for row_type in 1..=5 {
        for _ in 0..rng.within(least, room as u32) {
            let key = rng.within(1, highest_main_key(row_type).min(highest));
            rows.push(row_of(rng, row_type, key));
        }
    }
    rows
}

/// A random address of these rows, made as a view of a pair. Its follower says
/// what its organisation row has.
fn address(rng: &mut Rng, rows: &[TableRow], one_fault_in: usize) -> View {
    let mut address = view(rng, rows, one_fault_in);
    if rng.one_in(2) {
        address.address_key = rng.within(1, 4);
    }
    if one_fault_in == 0 {
        address.address_key = address.address_key.max(1);
    }
    address.locality %= 1 + highest_main_key(1);
    address.descriptor %= 1 + highest_main_key(3);
    address.dependent_descriptor %= 1 + highest_main_key(3);
    address
}

/// The organisation row that an address needs, with its follower's texts; none
/// where the row would have key zero.
fn joined(address: &View) -> Option<Organisation> {
    let follower = address.follower.as_ref()?;
    let key = joined_key(address).filter(|key| *key > 0)?;
    Some(Organisation {
        postcode_type: address.postcode_type,
        key,
        name: follower.organisation.clone(),
        department: follower.department.clone(),
    })
}

/// A row that perhaps no address needs.
fn any_organisation(rng: &mut Rng) -> Organisation {
    let postcode_type = *rng.pick(b"SL");
    let key = *rng.pick(&[1, 2, 7, 10_003, 99_999_999]);
    let name = match postcode_type {
        b'L' if rng.one_in(2) => String::new(),
        _ => organisation(rng, 60),
    };
    Organisation::new(postcode_type, key, &name, "")
}

/// Half of the sets get other bytes in what isn't read: editions, fillers,
/// abbreviations. A quarter get spaces in the address file's header, a quarter
/// in its trailer.
fn change_unread_bytes(rng: &mut Rng, set: &mut MainSet) {
    if rng.one_in(2) {
        let fillers = [6..51, 68..68, 24..30, 58..58, 38..38, 129..153, 88..88];
        for ((file, frame), filler) in set.files.iter_mut().zip(&MAIN_FRAMES).zip(fillers) {
            let last = file.len() / frame.record - 1;
            for (index, record) in file.chunks_exact_mut(frame.record).enumerate() {
                let unread = match index {
                    0 => frame.front() + 8..frame.record,
                    _ if index == last => frame.front() + 8..frame.record,
                    _ => filler.clone(),
                };
                fill(rng, &mut record[unread]);
            }
        }
    }
    let addresses = &mut set.files[6];
    let trailer = addresses.len() - 88;
    for start in [0, trailer] {
        if rng.one_in(4) {
            addresses[start..start + 7].fill(b' ');
        }
    }
}

/// A set of exactly so many records a file (2 to 10,001), without missing rows
/// or forbidden combinations. Most of its addresses are of the outward code AB1.
pub fn exact_set(rng: &mut Rng, records: usize) -> MainSet {
    let keys = 1..records as u32 - 1;
    let mut rows = Vec::new();
    for row_type in 1..=5 {
        rows.extend(keys.clone().map(|key| row_of(rng, row_type, key)));
    }
    let mut organisations = Vec::new();
    for key in keys.clone() {
        let row = any_organisation(rng);
        organisations.push(Organisation { key, ..row });
    }
    let addresses = keys.map(|address_key| {
        let mut address = View {
            address_key,
            outward: rng.pick(&["AB1", "AB1", "AB1", "AB10", "AB2"]).to_string(),
            follower: None,
            ..address(rng, &rows, 0)
        };
        join(rng, &organisations, &mut address);
        address
    });
    let addresses = addresses.collect();
    MainSet::new(rows, organisations, addresses)
}

/// Makes an address a large user where there is a row for it, or a small user
/// with the organisation of any row or with none.
fn join(rng: &mut Rng, organisations: &[Organisation], address: &mut View) {
    let any = rng.pick(organisations);
    let large = |row: &Organisation| row.postcode_type == b'L' && row.key == address.address_key;
    address.postcode_type = b'S';
    address.organisation_key = 0;
    if any.postcode_type == b'S' {
        address.organisation_key = any.key;
    } else if organisations.iter().any(large) {
        address.postcode_type = b'L';
    }
}

/// The set that says what a pair says: the rows in force with keys 1, 2 and so on
/// in each type, each view as an address whose address key is the view's number,
/// and for each follower an organisation of that key.
pub fn set_of_pair(pair: &Pair) -> MainSet {
    let mut in_force: BTreeMap<(u8, u32), TableRow> = BTreeMap::new();
    for row in &pair.rows {
        in_force.insert((row.row_type, row.key), row.clone());
    }
    in_force.retain(|_, row| row.is_in_force());
    let mut counts = [0; 6];
    for row in in_force.values_mut() {
        let count = &mut counts[usize::from(row.row_type)];
        *count += 1;
        row.key = *count;
    }
    let numbered = pair.views.iter().zip(1..);
    let addresses: Vec<View> = numbered
        .map(|(view, number)| with_keys(view, number, &in_force))
        .collect();
    let organisations = addresses.iter().filter_map(joined).collect();
    MainSet::new(in_force.into_values().collect(), organisations, addresses)
}

/// A view with the keys that its rows have got, and with its number for address
/// key and organisation key. A key without row gets one that is still without.
fn with_keys(view: &View, number: u32, rows: &BTreeMap<(u8, u32), TableRow>) -> View {
    let key_of = |row_type: u8, key: u32| match rows.get(&(row_type, key)) {
        _ if key == 0 => 0,
        Some(row) => row.key,
        None => highest_main_key(row_type),
    };
    View {
        address_key: number,
        organisation_key: if view.organisation_key > 0 { number } else { 0 },
        locality: key_of(1, view.locality),
        thoroughfare: key_of(2, view.thoroughfare),
        descriptor: key_of(3, view.descriptor),
        dependent_thoroughfare: key_of(2, view.dependent_thoroughfare),
        dependent_descriptor: key_of(3, view.dependent_descriptor),
        building: key_of(4, view.building),
        sub_building: key_of(5, view.sub_building),
        ..view.clone()
    }
}

/// The files of a set of so many records each (2 to 1,000,000), without missing
/// rows or forbidden combinations, in outward codes AB10 to AB99. Nothing but
/// the bytes is kept.
pub fn long_set(records: usize) -> [Vec<u8>; 7] {
    [1, 2, 3, 4, 5, 6, 7].map(|file| long_file(file, records))
}

/// One file (1 to 7) of such a set. It has as many records as the set, but the
/// descriptors', whose keys have four digits, at most 10,001.
pub fn long_file(file: u8, records: usize) -> Vec<u8> {
    let room = records as u32 - 2;
    let rows = room.min(highest_main_key(file));
    let records: Vec<Vec<u8>> = (1..=rows).map(|n| long_record(file, n, room)).collect();
    main_file_of(file, &records)
}

/// The n-th record of a file of a long set. The first half of the organisations
/// are of large users.
fn long_record(file: u8, n: u32, room: u32) -> Vec<u8> {
    match file {
        6 => {
            let postcode_type = if n <= room / 2 { b'L' } else { b'S' };
            Organisation::new(postcode_type, n, &format!("BAY {n} LTD"), "").record()
        }
        7 => long_address(n, room).address_record(),
        _ => long_row(file, n).main_record(),
    }
}

/// A row of a long file, 1 to 5, that has this key.
pub(super) fn long_row(file: u8, key: u32) -> TableRow {
    match file {
        1 => TableRow::locality(key, "HARTWELL BAY", &format!("NORTH END {key}"), ""),
        2 => TableRow::thoroughfare(key, &format!("QUARRY {key}")),
        3 => TableRow::descriptor(key, &format!("LANE {key}")),
        4 => TableRow::building(key, &format!("{key}-{key}A")),
        _ => TableRow::sub_building(key, &format!("FLAT {key}")),
    }
}

/// The n-th address of a long set; every fourth has an organisation.
fn long_address(n: u32, room: u32) -> View {
    let any = |file| 1 + n.wrapping_mul(7_919) % room.min(highest_main_key(file));
    let sector = (n - 1) * 10 / (1 + room / 90);
    let mut address = View {
        outward: format!("AB{}", 10 + sector / 10),
        inward: format!("{}AA", sector % 10),
        suffix: nth_suffix(n),
        address_key: n,
        locality: any(1),
        thoroughfare: any(2),
        descriptor: any(3),
        building_number: n % 3,
        building: any(4),
        sub_building: any(5),
        ..View::default()
    };
    match n % 4 {
        0 if n <= room / 2 => address.postcode_type = b'L',
        0 => address.organisation_key = n,
        _ => (),
    }
    address
}
