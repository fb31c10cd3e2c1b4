//! One month and one whole Mainfile, made as long as the guide says and taken
//! step by step: what each step costs. docs/SCALE.md has what it gave.
//!
//! It takes some minutes, 2 cores and 14 GB of disk below `TMPDIR`:
//! `cargo test --release --test scale -- --ignored --nocapture`

mod support;

use paper::make::{long_pair, Country, Rng};
use std::fs::File;
use std::io::{BufWriter, Write};
use std::ops::Range;
use std::time::Instant;
use support::Folder;

/// How many files the addresses of a Mainfile come in.
const ADDRESS_FILES: u32 = 5;

/// Runs a line of shell and says how long it took.
fn timed(folder: &Folder, step: &str, line: &str) {
    let begun = Instant::now();
    let run = folder.shell(line);
    let seconds = begun.elapsed().as_secs_f64();
    assert_eq!(run.status, Some(0), "{line}: {run:?}");
    let told = run.told.lines().last().unwrap_or("").to_string();
    println!("{step}: {seconds:.2} s {told}");
}

fn write(country: &Country, folder: &Folder, name: &str, file: u8, records: Range<u32>) {
    let out = File::create(folder.0.join(name)).expect("a file");
    let mut out = BufWriter::with_capacity(1 << 20, out);
    let written = country.write(file, records, &mut out);
    written.and_then(|()| out.flush()).expect("written");
}

/// A line of shell for each part in a folder, in which `$part` is the part.
fn each(parts: &str, line: &str) -> String {
    format!("for part in {parts}/*; do {line} 2>&1 || exit 1; done")
}

#[test]
#[ignore = "it takes some minutes"]
fn a_month_step_by_step() {
    let month = long_pair(&mut Rng::new(45), 45_147, 145_434, 2_000, false);
    let folder = Folder::with_pair(&month);
    timed(&folder, "cat", "cat changes1 changes2 >copy; sync copy");
    let extract = "\"$TTW\" extract changes1 changes2 --all --out parts";
    timed(&folder, "extract", extract);
    timed(&folder, "parts", "ls parts | wc -l >&2");
    let files = "$part/changes1 $part/changes2";
    let check = each("parts", &format!("\"$TTW\" check {files}"));
    timed(&folder, "check", &check);
    let pack = each("parts", &format!("\"$TTW\" pack {files} --all --out packs"));
    timed(&folder, "packs", &pack);
    timed(&folder, "packs", "ls packs | wc -l >&2");
}

#[test]
#[ignore = "it takes some minutes"]
fn a_mainfile_step_by_step() {
    let country = Country::whole();
    let folder = Folder::new();
    std::fs::create_dir(folder.0.join("set")).expect("a folder");
    for file in 1..=6 {
        let records = 0..country.records[usize::from(file) - 1];
        write(
            &country,
            &folder,
            &format!("set/rows.{file}"),
            file,
            records,
        );
    }
    let all = country.records[6];
    for number in 0..ADDRESS_FILES {
        let name = format!("set/fpmainfl.C0{}", 2 + number);
        let share = |number| (u64::from(all) * u64::from(number) / u64::from(ADDRESS_FILES)) as u32;
        write(
            &country,
            &folder,
            &name,
            7,
            share(number)..share(number + 1),
        );
    }
    timed(&folder, "cat", "cat set/* >copy; sync copy; rm copy");
    for most in ["1000000", "250000"] {
        let parts = format!("parts.{most}");
        let extract = format!("\"$TTW\" main extract set --all --most {most} --out {parts}");
        timed(&folder, &format!("extract {most}"), &extract);
        timed(&folder, "parts", &format!("ls {parts} | wc -l >&2"));
        let check = each(&parts, "\"$TTW\" main check $part");
        timed(&folder, &format!("check {most}"), &check);
    }
    let pack = each("parts.250000", "\"$TTW\" main pack $part --all --out packs");
    timed(&folder, "packs", &pack);
    timed(&folder, "packs", "ls packs | wc -l >&2; du -s packs >&2");
}
