//! A Mainfile set for a case: a mutated one, and others made by hand, with a file
//! that is damaged at a place, a record that is malformed, or an address that
//! cannot be printed.

use crate::files::number_of;
use crate::mutate;
use paper::make::{
    self, main_breaks, main_file_of, samples, Break, MainSet, Organisation, Place, Rng, TableRow,
    View,
};
use std::collections::BTreeSet;
use std::sync::LazyLock;

/// Bytes of a record in each file.
pub const WIDTHS: [usize; 7] = [151, 68, 30, 58, 38, 153, 88];

/// Seven files and what is asked of them.
pub struct SetFiles {
    pub files: [Vec<u8>; 7],
    pub code: Vec<u8>,
    pub view: u64,
    /// A number of an address in the code.
    pub nth: u64,
}

impl SetFiles {
    /// The files as they are lent.
    pub fn set(&self) -> [&[u8]; 7] {
        self.files.each_ref().map(Vec::as_slice)
    }
}

/// The set of a case.
pub fn of_case(rng: &mut Rng, number: u64) -> SetFiles {
    match number % 8 {
        0 | 4 => refused_address(rng, number / 4),
        1 | 5 => malformed(rng, number / 4),
        2 => damaged(rng, number / 8),
        _ => mutated(rng),
    }
}

/// These files with a code and numbers, mostly of addresses that there are.
fn asked(rng: &mut Rng, made: MainSet) -> SetFiles {
    let code = code_of(rng, &made);
    let addresses = made.addresses.iter();
    let of_code = addresses.filter(|one| make::padded(&one.outward, 4) == code);
    let nth = number_of(rng, of_code.count());
    SetFiles {
        view: number_of(rng, made.addresses.len()),
        files: made.files,
        code,
        nth,
    }
}

/// Mostly a code of the set, sometimes another or a malformed one.
fn code_of(rng: &mut Rng, made: &MainSet) -> Vec<u8> {
    match rng.below(8) {
        0 => make::bad_outward(rng),
        1 => make::outward(rng),
        _ if made.addresses.is_empty() => b"AB1 ".to_vec(),
        _ => make::padded(&rng.pick(&made.addresses).outward, 4),
    }
}

/// An accepted set, mutated by structure and by bytes, or left as it is.
fn mutated(rng: &mut Rng) -> SetFiles {
    let most = *rng.pick(&[4, 12, 30, 60, 120]);
    let made = make::main_set(rng, most);
    let mut set = asked(rng, made);
    for (file, width) in set.files.iter_mut().zip(WIDTHS) {
        if rng.one_in(8) {
            mutate::file(rng, file, width);
        }
    }
    set
}

/// A set of which one file is damaged, in turn each file with each refusal that
/// is not of a record alone.
fn damaged(rng: &mut Rng, turn: u64) -> SetFiles {
    let made = make::main_set(rng, 30);
    let mut set = asked(rng, made);
    let index = (turn % 7) as usize;
    let number = [1, 2, 3, 5][(turn / 7 % 4) as usize];
    let place = *rng.pick(Place::of(number));
    if let Some(damaged) = make::damaged_main(rng, index as u8 + 1, number, place) {
        set.files[index] = damaged.file;
    }
    set
}

/// A way in which a record of a file is malformed.
struct Way {
    file: u8,
    record: Vec<u8>,
    change: Break,
}

/// Each field of each file at fault in every way that `ttw-paper` knows.
static WAYS: LazyLock<Vec<Way>> = LazyLock::new(|| {
    let locality = |dependent, double| TableRow::locality(8, "HOLT", dependent, double);
    let records = [
        (1, locality("PENN", "OLD QUAY").main_record()),
        (1, locality("", "").main_record()),
        (2, TableRow::thoroughfare(8, "HIGH").main_record()),
        (3, TableRow::descriptor(8, "STREET").main_record()),
        (4, TableRow::building(8, "THE MANOR").main_record()),
        (5, TableRow::sub_building(8, "FLAT 1").main_record()),
        (6, Organisation::new(b'S', 8, "LEDA", "").record()),
        (6, Organisation::new(b'L', 8, "", "STORES").record()),
        (7, View::default().address_record()),
    ];
    let ways = records.into_iter().flat_map(|(file, record)| {
        let breaks = main_breaks(file, &record).into_iter();
        breaks.map(move |change| Way {
            file,
            record: record.clone(),
            change,
        })
    });
    ways.collect()
});

/// The bytes at which a record of a file, 1 to 7, is at fault in one of these
/// ways.
pub fn bytes(file: u8) -> BTreeSet<u64> {
    let ways = WAYS.iter().filter(|way| way.file == file);
    ways.map(|way| way.change.fault as u64).collect()
}

/// An accepted set, in one file of which a record is malformed, in turn in each
/// way; before and behind it stand as many good ones as there are.
fn malformed(rng: &mut Rng, turn: u64) -> SetFiles {
    let way = &WAYS[turn as usize % WAYS.len()];
    let index = usize::from(way.file) - 1;
    let made = make::main_set(rng, 20);
    let mut set = asked(rng, made);
    let width = WIDTHS[index];
    let mut records: Vec<Vec<u8>> = set.files[index].chunks(width).map(<[u8]>::to_vec).collect();
    records.pop();
    let mut broken = way.record.clone();
    way.change.apply(&mut broken);
    let place = 1 + rng.below(records.len());
    records.insert(place, broken);
    set.files[index] = main_file_of(way.file, &records[1..]);
    set
}

/// A key that has rows of every kind, and one that has none.
const FINE: u32 = 9_998;
const GONE: u32 = 9_997;

/// An accepted set with an address that is refused, in turn with each rule of
/// refusal 8 and each field of refusal 9; that address is asked for.
fn refused_address(rng: &mut Rng, turn: u64) -> SetFiles {
    let MainSet {
        mut rows,
        mut organisations,
        mut addresses,
        ..
    } = match rng.one_in(4) {
        true => samples::main_set(),
        false => make::main_set(rng, 40),
    };
    rows.retain(|row| row.key != GONE);
    organisations.retain(|row| row.key != GONE);
    rows.push(TableRow::locality(FINE, "HOLT", "", ""));
    rows.push(TableRow::thoroughfare(FINE, "HIGH"));
    let code = make::outward(rng);
    let mut address = View {
        outward: String::from_utf8_lossy(code.trim_ascii_end()).into_owned(),
        address_key: 99_999_999,
        locality: FINE,
        ..View::default()
    };
    refuse(&mut address, turn % 12);
    addresses.push(address.clone());
    let made = MainSet::new(rows, organisations, addresses);
    let place = |is_counted: &dyn Fn(&View) -> bool| {
        let counted = made.addresses.iter().filter(|one| is_counted(one));
        1 + counted.take_while(|one| **one != address).count() as u64
    };
    SetFiles {
        view: place(&|_| true),
        nth: place(&|other| other.outward == address.outward),
        files: made.files.clone(),
        code,
    }
}

/// Gives an address that could be printed keys with which it cannot.
fn refuse(address: &mut View, way: u64) {
    match way {
        0 => address.locality = GONE,
        1 => address.thoroughfare = GONE,
        2 => (address.thoroughfare, address.descriptor) = (FINE, GONE),
        3 => (address.thoroughfare, address.dependent_thoroughfare) = (FINE, GONE),
        4 => {
            (address.thoroughfare, address.dependent_thoroughfare) = (FINE, FINE);
            address.dependent_descriptor = GONE;
        }
        5 => address.building = GONE,
        6 => (address.building_number, address.sub_building) = (1, GONE),
        7 => address.sub_building = GONE,
        8 => address.dependent_thoroughfare = FINE,
        9 => address.descriptor = GONE,
        10 => address.organisation_key = GONE,
        _ => (address.postcode_type, address.address_key) = (b'L', GONE),
    }
}
