use super::codes::{FIRST, INWARD, SECOND};
use super::sets::long_row;
use super::{main_file_of, nth_suffix, Organisation, View};
use std::io::{self, Write};
use std::ops::Range;

/// A Mainfile of any length, made record by record, without missing rows or
/// forbidden combinations. Fifteen addresses have the same postcode and street;
/// one in 13 has a building name, one in 19 a sub building, one in 23 is a small
/// user with an organisation, one in 200 a large user.
pub struct Country {
    /// How many rows or addresses each file has.
    pub records: [u32; 7],
    /// The outward codes, rising; none has more than 60,000 addresses.
    codes: Vec<String>,
}

/// How many addresses have one postcode, how many postcodes one sector, and for
/// how many addresses there is a large user.
const TO_A_POSTCODE: u32 = 15;
const TO_A_SECTOR: u32 = 400;
const TO_A_LARGE_USER: u32 = 200;

impl Country {
    /// The whole country: the guide's Table 34, in 124 areas.
    pub fn whole() -> Country {
        let rows = [41_314, 205_900, 212, 2_255_653, 151_434];
        Country::new(rows, 1_390_433, 28_524_452, 124)
    }

    /// So many rows, organisations, addresses, and areas of 24 codes each. There
    /// have to be more organisations than large users.
    pub fn new(rows: [u32; 5], organisations: u32, addresses: u32, areas: usize) -> Country {
        let pairs = FIRST
            .iter()
            .flat_map(|first| SECOND.iter().map(|second| [*first, *second]));
        let of_area = |letters: [u8; 2]| {
            let area = String::from_utf8_lossy(&letters).into_owned();
            (1..=24).map(move |district| format!("{area}{district}"))
        };
        let mut codes: Vec<String> = pairs.take(areas).flat_map(of_area).collect();
        codes.sort();
        let [one, two, three, four, five] = rows;
        Country {
            records: [one, two, three, four, five, organisations, addresses],
            codes,
        }
    }

    /// Writes a file (1 to 7) that has these of its records between a header and
    /// a trailer.
    pub fn write(&self, file: u8, records: Range<u32>, out: &mut impl Write) -> io::Result<()> {
        let ends = main_file_of(file, &[]);
        let (header, trailer) = ends.split_at(ends.len() / 2);
        out.write_all(header)?;
        let count = records.len() + 2;
        for n in records {
            out.write_all(&self.record(file, n))?;
        }
        let at = if file == 7 { 15 } else { 8 };
        out.write_all(&trailer[..at])?;
        write!(out, "{count:08}")?;
        out.write_all(&trailer[at + 8..])
    }

    /// A record of a file, 0 being the first behind the header.
    fn record(&self, file: u8, n: u32) -> Vec<u8> {
        match file {
            6 => self.organisation(n).record(),
            7 => self.address(n).address_record(),
            _ => long_row(file, n + 1).main_record(),
        }
    }

    fn large_users(&self) -> u32 {
        self.records[6].div_ceil(TO_A_LARGE_USER)
    }

    fn organisation(&self, n: u32) -> Organisation {
        let name = format!("BAY {n} LTD");
        match n.checked_sub(self.large_users()) {
            None => Organisation::new(b'L', n * TO_A_LARGE_USER + 1, &name, "METERS"),
            Some(small) => Organisation::new(b'S', small + 1, &name, ""),
        }
    }

    /// The code of an address, and its place among those of this code.
    fn place(&self, n: u32) -> (usize, u32) {
        let (codes, all) = (self.codes.len() as u64, u64::from(self.records[6]));
        let code = u64::from(n) * codes / all;
        let first = (code * all).div_ceil(codes);
        (code as usize, n - first as u32)
    }

    fn address(&self, n: u32) -> View {
        let (code, place) = self.place(n);
        let postcode = place / TO_A_POSTCODE;
        let unit = (postcode % TO_A_SECTOR) as usize;
        let letter = |at: usize| char::from(INWARD[at]);
        let digit = postcode / TO_A_SECTOR;
        let street = mixed(code as u32 * 4_000 + postcode);
        let any = |file: u8, of: u32| 1 + of % self.records[usize::from(file) - 1];
        let sometimes = |times: u32, key: u32| if n.is_multiple_of(times) { key } else { 0 };
        let mut address = View {
            outward: self.codes[code].clone(),
            inward: format!("{digit}{}{}", letter(unit / 20), letter(unit % 20)),
            suffix: nth_suffix(1 + place % TO_A_POSTCODE),
            address_key: n + 1,
            locality: any(1, code as u32 * 13),
            thoroughfare: any(2, street),
            descriptor: any(3, street >> 8),
            building_number: 1 + 2 * (place % TO_A_POSTCODE),
            building: sometimes(13, any(4, mixed(n))),
            sub_building: sometimes(19, any(5, mixed(n) >> 3)),
            ..View::default()
        };
        let small = self.records[5] - self.large_users();
        match n % TO_A_LARGE_USER {
            0 => address.postcode_type = b'L',
            _ => address.organisation_key = sometimes(23, 1 + mixed(n) % small),
        }
        address
    }
}

/// A number that looks like chance.
fn mixed(number: u32) -> u32 {
    let mixed = (number ^ number >> 16).wrapping_mul(0x045D_9F3B);
    (mixed ^ mixed >> 16).wrapping_mul(0x045D_9F3B)
}
