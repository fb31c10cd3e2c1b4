//! The library's calls on a set, of the same names, arguments and answers as in `ttw::main_calls`.

use super::check::{self, eight, Address};
use super::label::places_of;
use super::Main;
use crate::plain::answer;
use crate::plain_fields::refused;
use crate::plain_label::Sheet;
use paper::mainfile::{self, Set};
use paper::{packed_run, Refusal};

fn addresses(file: &[u8]) -> Result<&[Address], Refusal> {
    check::addresses(file).map_or_else(|| refused(mainfile::live(file, b"AB1 ")), Ok)
}

pub fn views(set: Set) -> u64 {
    answer(Main::accept(set).map(|main| main.addresses.len()))
}

pub fn live(file: &[u8], code: &[u8]) -> u64 {
    answer(addresses(file).and_then(|all| Ok(places_of(all, code)?.len())))
}

pub fn codes(file: &[u8], out: &mut [u8]) -> u64 {
    answer(addresses(file).and_then(|all| write_codes(all, out)))
}

/// The codes, each with its addresses: these stand together.
fn write_codes(addresses: &[Address], out: &mut [u8]) -> Result<usize, Refusal> {
    let all = || {
        let mut left = addresses;
        std::iter::from_fn(move || {
            let code = eight(left.first()?, 0) >> 32;
            let count = left.partition_point(|other| eight(other, 0) >> 32 == code);
            left = &left[count..];
            Some((code as u32, count as u32))
        })
    };
    let count = all().count();
    if out.len() < 8 * count {
        return Err(Refusal::new(10, 8 * count as u64));
    }
    let mut sheet = Sheet { out, at: 0 };
    for (code, count) in all() {
        sheet.four(code);
        sheet.four(count);
    }
    Ok(count)
}

pub fn label(set: Set, view: u64, out: &mut [u8]) -> u64 {
    answer(Main::accept(set).and_then(|main| main.label(None, view, out)))
}

pub fn code_label(set: Set, code: &[u8], k: u64, out: &mut [u8]) -> u64 {
    answer(Main::accept(set).and_then(|main| main.label(Some(code), k, out)))
}

pub fn labels(set: Set, first: u64, count: u64, out: &mut [u8], bytes: &mut u64) -> u64 {
    let run = Main::accept(set).and_then(|main| main.labels(None, first, count, out));
    packed_run(run, bytes)
}

pub fn list(set: Set, first: u64, count: u64, out: &mut [u8], bytes: &mut u64) -> u64 {
    let run = Main::accept(set).and_then(|main| main.list(None, first, count, out));
    packed_run(run, bytes)
}

pub fn code_labels(
    set: Set,
    code: &[u8],
    first: u64,
    count: u64,
    out: &mut [u8],
    bytes: &mut u64,
) -> u64 {
    let run = Main::accept(set).and_then(|main| main.labels(Some(code), first, count, out));
    packed_run(run, bytes)
}

pub fn code_list(
    set: Set,
    code: &[u8],
    first: u64,
    count: u64,
    out: &mut [u8],
    bytes: &mut u64,
) -> u64 {
    let run = Main::accept(set).and_then(|main| main.list(Some(code), first, count, out));
    packed_run(run, bytes)
}

pub fn csv_row(set: Set, view: u64, out: &mut [u8]) -> u64 {
    answer(Main::accept(set).and_then(|main| main.row(view, out)))
}

pub fn csv_rows(set: Set, first: u64, count: u64, out: &mut [u8], bytes: &mut u64) -> u64 {
    let run = Main::accept(set).and_then(|main| main.rows(first, count, out));
    packed_run(run, bytes)
}

pub fn build(set: Set, code: &[u8], out: &mut [u8]) -> u64 {
    answer(Main::accept(set).and_then(|main| main.build(code, out)))
}
