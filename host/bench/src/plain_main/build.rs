//! A pack cut from a set.

use super::check::{Address, MOST};
use super::label::places_of;
use super::rows::{Found, Shelf, ORGANISATION, SHELVES, TEXTS};
use super::Main;
use crate::plain_build::{row_len, Area, Places, PointPlaces, ABSENT};
use crate::plain_label::Sheet;
use paper::Refusal;

/// Where a point's fields stand in an address.
const POINT: PointPlaces = PointPlaces {
    postcode: 0,
    suffix: 79,
    postcode_type: 77,
    address_key: 7,
    organisation_key: 69,
    number: 45,
    concatenation: 78,
    po_box: 82,
};

/// How many times 64 rows a file may have.
const WORDS: usize = MOST / 64;

/// Which rows of a file are used, a bit for each, and where the first of each 64 starts.
struct Used {
    bits: [u64; WORDS],
    starts: [u32; WORDS],
}

/// The places of the bits of a word.
fn ones(mut word: u64) -> impl Iterator<Item = usize> {
    std::iter::from_fn(move || {
        let place = (word != 0).then_some(word.trailing_zeros() as usize);
        word &= word.wrapping_sub(1);
        place
    })
}

impl Used {
    fn mark(&mut self, place: usize) {
        self.bits[place / 64] |= 1 << (place % 64);
    }

    /// The places of the used rows.
    fn places(&self) -> impl Iterator<Item = usize> + '_ {
        let words = self.bits.iter().enumerate();
        words.flat_map(|(n, word)| ones(*word).map(move |one| 64 * n + one))
    }

    /// Gives each 64 rows their start.
    fn place(&mut self, shelf: &Shelf, texts: Places, area: &mut Area) {
        for (n, (start, word)) in self.starts.iter_mut().zip(&self.bits).enumerate() {
            *start = area.bytes as u32;
            for one in ones(*word) {
                area.bytes += row_len(shelf.row(64 * n + one), texts);
                area.rows += 1;
            }
        }
    }

    /// Where a used row starts.
    fn start(&self, shelf: &Shelf, texts: Places, place: usize) -> u32 {
        let n = place / 64;
        let before = self.bits[n] & ((1 << (place % 64)) - 1);
        let lens = ones(before).map(|one| row_len(shelf.row(64 * n + one), texts) as u32);
        self.starts[n] + lens.sum::<u32>()
    }
}

impl Main<'_> {
    /// The pack of a code.
    pub fn build(&self, code: &[u8], out: &mut [u8]) -> Result<usize, Refusal> {
        let places = places_of(self.addresses, code)?;
        let addresses = &self.addresses[places.clone()];
        let mut used = [const {
            Used {
                bits: [0; WORDS],
                starts: [0; WORDS],
            }
        }; 5];
        let own = self
            .mark(&mut used, addresses)
            .map_err(|(n, refusal)| Refusal {
                second: (places.start + n) as u64 + 1,
                ..refusal
            })?;
        let mut area = Area {
            rows: 0,
            bytes: 0,
            ..own
        };
        for ((used, shelf), texts) in used.iter_mut().zip(&self.shelves).zip(TEXTS) {
            used.place(shelf, texts, &mut area);
        }
        area.rows += own.rows;
        area.bytes += own.bytes;
        let length = area.length();
        if out.len() < length {
            return Err(Refusal::new(10, length as u64));
        }
        let mut sheet = Sheet { out, at: 0 };
        self.write(&used, addresses, &mut sheet)?;
        area.put_trailer(code, &mut sheet);
        Ok(length)
    }

    /// Marks the rows of these addresses and counts them and their organisations; or the first 8 or 9, with its place.
    fn mark(&self, used: &mut [Used; 5], addresses: &[Address]) -> Result<Area, (usize, Refusal)> {
        let mut own = Area::default();
        for (n, address) in addresses.iter().enumerate() {
            let found = self.rows_of(address).map_err(|refusal| (n, refusal))?;
            for (place, shelf) in found.into_iter().zip(SHELVES) {
                if let Some(place) = place {
                    used[shelf].mark(place);
                }
            }
            if let Some(place) = found[7] {
                own.rows += 1;
                own.bytes += row_len(&self.organisations[place], ORGANISATION);
            }
            own.count(&POINT, address);
        }
        Ok(own)
    }

    /// Writes rows and points.
    fn write(
        &self,
        used: &[Used; 5],
        addresses: &[Address],
        sheet: &mut Sheet,
    ) -> Result<(), Refusal> {
        for (n, used) in used.iter().enumerate() {
            for place in used.places() {
                sheet.row(n as u8 + 1, self.shelves[n].row(place), TEXTS[n]);
            }
        }
        let mut organisation = sheet.at as u32;
        for address in addresses {
            if let Some(place) = self.organisation_of(address) {
                sheet.row(6, &self.organisations[place], ORGANISATION);
            }
        }
        for address in addresses {
            let found = self.rows_of(address)?;
            let mut offsets = self.offsets(used, &found);
            if let Some(place) = found[7] {
                offsets[7] = organisation;
                organisation += row_len(&self.organisations[place], ORGANISATION) as u32;
            }
            sheet.point(&POINT, address, offsets);
        }
        Ok(())
    }

    /// Where the rows of an address start, but for its organisation's.
    fn offsets(&self, used: &[Used; 5], found: &Found) -> [u32; 8] {
        let mut offsets = [ABSENT; 8];
        for (i, shelf) in SHELVES.into_iter().enumerate() {
            if let Some(place) = found[i] {
                offsets[i] = used[shelf].start(&self.shelves[shelf], TEXTS[shelf], place);
            }
        }
        offsets
    }
}
