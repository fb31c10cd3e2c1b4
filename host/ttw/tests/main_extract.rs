//! `ttw main extract`: parts of a Mainfile set hold what the whole holds, also
//! where its addresses stand in several files, and what is damaged is told.

mod support;

use paper::mainfile;
use paper::make::samples::MAIN_NAMES;
use paper::make::{damaged_main, exact_set, joined_key, main_file_of, main_set, samples};
use paper::make::{Country, MainSet, Organisation, Place, Rng, TableRow, View};
use std::collections::BTreeSet;
use std::fs::{self, File};
use std::io::{BufWriter, Write};
use support::faults::Faults;
use support::{Folder, Run, SET};
use ttw::ask::Refusal;
use ttw::main_set;
use ttw::words::main_words;

fn desk(files: &[Vec<u8>; 7]) -> Folder {
    let folder = Folder::new();
    folder.put_set(files);
    folder
}

/// `ttw main extract` of these files into `parts`.
fn extract(folder: &Folder, files: &[&str], options: &[&str]) -> Run {
    let command = ["main", "extract", "--out", "parts"];
    folder.ttw(&[&command, files, options].concat())
}

/// A part as it stands in the folder.
struct Part {
    name: String,
    files: [Vec<u8>; 7],
}

fn parts(folder: &Folder) -> Vec<Part> {
    let read = |name: String| Part {
        files: MAIN_NAMES.map(|file| folder.read(&format!("parts/{name}/{file}"))),
        name,
    };
    folder.names("parts").into_iter().map(read).collect()
}

impl Part {
    /// Its addresses between header and trailer.
    fn addresses(&self) -> &[u8] {
        let file = &self.files[6];
        &file[88..file.len() - 88]
    }
}

/// The set of some addresses and the rows that they refer to.
fn set_of(whole: &MainSet, addresses: Vec<View>) -> MainSet {
    let types = [1, 2, 3, 2, 3, 4, 5];
    let named = |view: &View| types.into_iter().zip(view.keys());
    let rows: BTreeSet<(u8, u32)> = addresses.iter().flat_map(named).collect();
    let joined = |view: &View| joined_key(view).map(|key| (view.postcode_type, key));
    let organisations: BTreeSet<(u8, u32)> = addresses.iter().filter_map(joined).collect();
    let is_row = |row: &&TableRow| rows.contains(&(row.row_type, row.key));
    let is_joined = |row: &&Organisation| organisations.contains(&(row.postcode_type, row.key));
    MainSet::new(
        whole.rows.iter().filter(is_row).cloned().collect(),
        whole
            .organisations
            .iter()
            .filter(is_joined)
            .cloned()
            .collect(),
        addresses,
    )
}

/// Fails unless each part is, byte by byte, the set of its addresses, and all of
/// them together are those of the whole, no code in two but in pieces.
fn parts_are_of_the_whole(whole: &MainSet, parts: &[Part], most: usize) {
    let mut left: Vec<View> = whole.addresses.clone();
    let mut sorted: Vec<&Part> = parts.iter().collect();
    sorted.sort_by_key(|part| part.addresses()[..15].to_vec());
    let mut last = String::new();
    for part in sorted {
        let count = part.addresses().len() / 88;
        assert!(part.files[6].len() / 88 <= most);
        let expected = set_of(whole, left.drain(..count).collect());
        for (file, name) in MAIN_NAMES.iter().enumerate() {
            assert!(
                part.files[file] == expected.files[file],
                "{}: {name}",
                part.name
            );
        }
        let first = &expected.addresses[0].outward;
        assert!(*first != last || part.name.contains('.'), "{}", part.name);
        last = expected.addresses[count - 1].outward.clone();
    }
    assert!(left.is_empty());
}

#[test]
fn parts_are_the_sets_of_their_addresses() {
    let mut split = 0;
    for seed in 0..12 {
        let rng = &mut Rng::new(seed);
        let (whole, most) = match seed % 2 {
            0 => (exact_set(rng, 400), 120),
            _ => (main_set(rng, 60), 24),
        };
        let plain = MainSet::new(
            whole.rows.clone(),
            whole.organisations.clone(),
            whole.addresses.clone(),
        );
        let folder = desk(&plain.files);
        let run = extract(&folder, &["set"], &["--all", "--most", &most.to_string()]);
        let parts = parts(&folder);
        assert_eq!(run.status, Some(0), "{run:?}");
        assert!(run
            .told
            .ends_with(&format!("parts written: {}\n", parts.len())));
        split += usize::from(run.told.contains("split between views"));
        parts_are_of_the_whole(&plain, &parts, most);
    }
    assert!(split > 3, "{split}");
}

/// What the library answers about each address of a code, and what the second
/// program answers.
fn listed(set: mainfile::Set, code: &[u8], is_second: bool) -> String {
    let mut out = vec![0; 520 * (set[6].len() / 88)];
    let bytes = match is_second {
        true => {
            let run = mainfile::code_list(set, code, 1, u64::MAX, &mut out);
            run.expect("accepted").bytes
        }
        false => {
            let run = main_set::MainSet(set).code_list(code, 1, u64::MAX, &mut out);
            run.expect("accepted").bytes
        }
    };
    let text = String::from_utf8_lossy(&out[..bytes]).into_owned();
    // A view has another number in a part.
    let lines = text.lines().filter(|line| !line.starts_with("view "));
    lines.collect::<Vec<&str>>().join("\n")
}

#[test]
fn labels_and_packs_of_parts_are_the_second_programs_of_the_whole() {
    for (made, options) in [
        (samples::main_set(), ["--all", "--line-ends"]),
        (exact_set(&mut Rng::new(30), 300), ["--code", "AB2,AB10"]),
    ] {
        let folder = desk(&made.files);
        extract(&folder, &["set"], &options);
        let mut packs = 0;
        for part in parts(&folder) {
            let set = part.files.each_ref().map(Vec::as_slice);
            let addresses = part.addresses().chunks_exact(88);
            let codes: BTreeSet<&[u8]> = addresses.map(|record| &record[..4]).collect();
            for code in codes {
                assert_eq!(listed(set, code, false), listed(made.set(), code, true));
                let mut pack = vec![0; 1 << 20];
                let built = mainfile::build(made.set(), code, &mut pack);
                let of_part = main_set::MainSet(set).build(code, 1 << 20);
                match (built, of_part) {
                    (Ok(length), Ok(of_part)) => assert!(of_part == pack[..length]),
                    (one, other) => assert!(one.is_err() && other.is_err()),
                }
                packs += u32::from(built.is_ok());
            }
        }
        assert!(packs > 1, "{packs}");
    }
}

/// The address file of a set in three, each with header and trailer or the first
/// and the last alone with one of them.
fn in_three(addresses: &[u8], has_ends: bool) -> [Vec<u8>; 3] {
    let records: Vec<Vec<u8>> = addresses.chunks_exact(88).map(<[u8]>::to_vec).collect();
    let (one, two) = (records.len() / 4, records.len() / 2);
    let pieces = [&records[..one], &records[one..two], &records[two..]];
    if !has_ends {
        return pieces.map(<[Vec<u8>]>::concat);
    }
    let last = records.len() - 1;
    let pieces = [&records[1..one], &records[one..two], &records[two..last]];
    pieces.map(|piece| main_file_of(7, piece))
}

#[test]
fn addresses_may_stand_in_several_files_in_any_order() {
    let whole = exact_set(&mut Rng::new(5), 400);
    for has_ends in [true, false] {
        let folder = desk(&whole.files);
        fs::remove_file(folder.0.join("set/a")).expect("removed");
        let three = in_three(&whole.files[6], has_ends);
        for (name, file) in ["x", "w", "y"].iter().zip(&three) {
            folder.put(&format!("set/{name}"), file);
        }
        extract(&folder, &["set"], &["--all"]).only_tells(0, "parts written: 1");
        parts_are_of_the_whole(&whole, &parts(&folder), 1_000_000);
        fs::remove_dir_all(folder.0.join("parts")).expect("removed");
        let others = SET[..6].iter().map(|name| format!("set/{name}"));
        let files = ["set/y", "set/w", "set/x"].map(str::to_string);
        let files: Vec<String> = files.into_iter().chain(others).collect();
        let files: Vec<&str> = files.iter().map(String::as_str).collect();
        extract(&folder, &files, &["--all"]).only_tells(0, "parts written: 1");
        parts_are_of_the_whole(&whole, &parts(&folder), 1_000_000);
    }
}

#[test]
fn files_in_a_row_that_do_not_fit_are_told() {
    let whole = exact_set(&mut Rng::new(5), 400);
    let told = |files: [Vec<u8>; 3], told: &str| {
        let folder = desk(&whole.files);
        fs::remove_file(folder.0.join("set/a")).expect("removed");
        for (name, file) in ["x", "y", "z"].iter().zip(&files) {
            folder.put(&format!("set/{name}"), file);
        }
        extract(&folder, &["set"], &["--all"]).only_tells(1, told);
        assert!(!folder.0.join("parts").exists());
    };
    let [one, two, three] = in_three(&whole.files[6], true);
    let repeated = [one.clone(), two.clone(), two.clone()];
    let why = "address: record 2 is not above the record before it (refusal 5)";
    told(repeated, &format!("set/z: {why}"));
    let mut miscounted = two.clone();
    miscounted[two.len() - 88 + 22] ^= 1;
    let why = "address: record 102, the last, is not a trailer with the right count (refusal 3)";
    told(
        [one.clone(), miscounted, three.clone()],
        &format!("set/y: {why}"),
    );
    let without_trailer = two[..two.len() - 88].to_vec();
    let why = "address: record 101, the last, is not a trailer with the right count (refusal 3)";
    told(
        [one.clone(), without_trailer, three.clone()],
        &format!("set/y: {why}"),
    );
    let without_header = two[88..].to_vec();
    let why = "address: record 1 is not the header of such a file (refusal 2)";
    told([one, without_header, three], &format!("set/y: {why}"));
}

#[test]
fn damage_of_every_kind_is_told_with_file_and_record() {
    let good = samples::main_set();
    let mut told = 0;
    for file in 1..=7 {
        for (number, place) in (2..=5).flat_map(|number| Place::ALL.map(|place| (number, place))) {
            let rng = &mut Rng::new(u64::from(10 * file + number));
            let Some(damaged) = damaged_main(rng, file, number, place) else {
                continue;
            };
            let name = SET[usize::from(file) - 1];
            let folder = desk(&good.files);
            folder.put(&format!("set/{name}"), &damaged.file);
            let run = extract(&folder, &["set"], &["--all"]);
            if run.status == Some(2) {
                assert_eq!(number, 2, "{run:?}");
                continue;
            }
            let why = Refusal {
                number,
                file,
                second: damaged.refusal.second,
                detail: damaged.refusal.detail,
            };
            run.only_tells(1, &format!("set/{name}: {}", main_words(&why, "files")));
            assert!(!folder.0.join("parts").exists());
            told += 1;
        }
    }
    assert!(told > 30, "{told}");
}

#[test]
fn line_ends_of_each_file_are_told_and_taken_out() {
    let whole = exact_set(&mut Rng::new(8), 50);
    let ends: [&[u8]; 3] = [b"\r\n", b"\n", b""];
    let widths = [151, 68, 30, 58, 38, 153, 88];
    let mut files = whole.files.clone();
    for (index, (file, width)) in files.iter_mut().zip(widths).enumerate() {
        let records = file.chunks_exact(width);
        *file = records
            .flat_map(|record| [record, ends[index % 3]].concat())
            .collect();
    }
    let folder = desk(&files);
    let told = "set/a: a line end, CR LF, stands behind record 1: --line-ends takes such out";
    extract(&folder, &["set"], &["--all"]).only_tells(1, told);
    let taken = ["--all", "--line-ends"];
    extract(&folder, &["set"], &taken).only_tells(0, "parts written: 1");
    parts_are_of_the_whole(&whole, &parts(&folder), 1_000_000);
}

#[test]
fn codes_and_areas_are_taken_as_they_are_asked_for() {
    let whole = samples::main_set();
    for (options, name) in [
        (["--code", "AB10"], "AB10"),
        (["--code", "AB2,AB1"], "AB1-AB2"),
        (["--area", "AB"], "AB1-AB2"),
    ] {
        let folder = desk(&whole.files);
        extract(&folder, &["set"], &options).only_tells(0, "parts written: 1");
        assert_eq!(folder.names("parts"), [name]);
        let part = &parts(&folder)[0];
        let is_in = |address: &&View| match options[1] {
            "AB" => true,
            codes => codes.split(',').any(|code| code == address.outward),
        };
        let expected = set_of(
            &whole,
            whole.addresses.iter().filter(is_in).cloned().collect(),
        );
        assert!(part.files == expected.files, "{options:?}");
    }
    let folder = desk(&whole.files);
    let told = "code ZE1: there is no record of it\nparts written: 0";
    extract(&folder, &["set"], &["--code", "ZE1"]).only_tells(1, told);
    let told = "ttw: --most takes a number from 4 to 1000000";
    extract(&folder, &["set"], &["--all", "--most", "1000001"]).only_tells(2, told);
}

#[test]
fn a_part_that_is_not_what_was_written_is_removed() {
    let folder = desk(&samples::main_set().files);
    let faults = Faults::new(&folder);
    let run = |spoil: &str| {
        let command = ["main", "extract", "set", "--out", "parts", "--code", "AB10"];
        let run = faults.spoiled(spoil, &command);
        assert!(folder.names("parts").is_empty());
        run
    };
    let told = "ttw: part AB10: descriptor: record 2 is malformed at byte 4 (refusal 4); \
                it is removed";
    run("descriptor 33 ?").only_tells(2, told);
    let told = "ttw: part AB10: of AB10 it has 7 records and 7 live views, \
                the input 8 records and 8 live views; it is removed";
    run("address 707 1").only_tells(2, told);
}

#[test]
fn a_part_that_cannot_be_written_leaves_those_before_it() {
    let folder = desk(&exact_set(&mut Rng::new(5), 200).files);
    let faults = Faults::new(&folder);
    let command = ["main", "extract", "set", "--out", "parts", "--all"];
    let command = [&command[..], &["--most", "60"]].concat();
    let settings = [
        ("FAULTS_FAIL", "fsync 3 1000 28"),
        ("FAULTS_FILE", "building"),
    ];
    let run = faults.ttw(&settings, &command).run;
    assert_eq!(run.status, Some(2));
    let why = "No space left on device (os error 28)\n";
    assert!(run.told.starts_with("ttw: cannot write parts/") && run.told.ends_with(why));
    // Of a part two files have such a name.
    assert_eq!(folder.names("parts"), ["AB1.1"]);
    assert_eq!(
        main_set::MainSet(parts(&folder)[0].files.each_ref().map(Vec::as_slice)).views(),
        Ok(29)
    );
}

#[test]
fn damage_behind_some_parts_leaves_them_whole() {
    let country = Country::new([50, 400, 20, 300, 40], 500, 40_000, 1);
    let folder = Folder::new();
    let write = |name: &str, file: u8| {
        let mut bytes = Vec::new();
        let records = 0..country.records[usize::from(file) - 1];
        let written = country.write(file, records, &mut bytes);
        written.expect("written");
        if file == 7 {
            bytes[39_000 * 88 + 5] = b'?';
        }
        folder.put(name, &bytes);
    };
    (1..=7).for_each(|file| write(&format!("file{file}"), file));
    let told = "./file7: address: record 39001 is malformed at byte 6 (refusal 4)";
    extract(&folder, &["."], &["--all", "--most", "5000"]).only_tells(1, told);
    let parts = parts(&folder);
    assert!(parts.len() > 5, "{:?}", folder.names("parts"));
    for part in &parts {
        let set = part.files.each_ref().map(Vec::as_slice);
        assert!(main_set::MainSet(set).views().is_ok(), "{}", part.name);
    }
}

#[test]
fn one_thread_is_enough() {
    let whole = exact_set(&mut Rng::new(5), 200);
    let folder = desk(&whole.files);
    let command = ["main", "extract", "set", "--all", "--out", "parts"];
    // Error 11: the system gives no more threads for now.
    let settings = [("FAULTS_FAIL", "thread 2 1000000 11")];
    let run = Faults::new(&folder).ttw(&settings, &command).run;
    run.only_tells(0, "parts written: 1");
    parts_are_of_the_whole(&whole, &parts(&folder), 1_000_000);
}

/// A set of more addresses than the library accepts, in two files, made record by
/// record.
#[test]
fn a_set_over_the_limit_is_cut_where_codes_meet() {
    let country = Country::new([300, 2_000, 50, 3_000, 400], 9_000, 1_100_000, 1);
    let folder = Folder::new();
    let write = |name: &str, file: u8, records: std::ops::Range<u32>| {
        let mut out = BufWriter::new(File::create(folder.0.join(name)).expect("a file"));
        let written = country.write(file, records, &mut out);
        written.and_then(|()| out.flush()).expect("written");
    };
    for file in 1..=6 {
        let count = country.records[usize::from(file) - 1];
        write(&format!("file{file}"), file, 0..count);
    }
    write("address.1", 7, 0..600_000);
    write("address.2", 7, 600_000..1_100_000);
    extract(&folder, &["."], &["--all"]).only_tells(0, "parts written: 2");
    let parts = parts(&folder);
    let records: Vec<u8> = parts
        .iter()
        .flat_map(|part| part.addresses().to_vec())
        .collect();
    let [one, two] = ["address.1", "address.2"].map(|name| folder.read(name));
    assert!(records == [&one[88..one.len() - 88], &two[88..two.len() - 88]].concat());
    let code_at = |at: usize| &records[at * 88..][..4];
    let first = parts[0].addresses().len() / 88;
    assert_ne!(code_at(first - 1), code_at(first));
    // The code behind the first part begins in front of the limit.
    assert_eq!(code_at(first), code_at(999_998));
    for part in &parts {
        let set = part.files.each_ref().map(Vec::as_slice);
        let views = main_set::MainSet(set).views();
        assert_eq!(views, Ok((part.addresses().len() / 88) as u64));
    }
}
