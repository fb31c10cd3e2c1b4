//! `ttw extract`: parts of a pair that is too long for the library hold what the
//! whole holds, byte by byte and label by label, and what is damaged, too long or
//! asked for in vain is told.

mod support;

use paper::make::{damaged_points, damaged_table, Place};
use paper::make::{long_pair, padded, worked_pair, Pair, Rng, TableRow, View};
use paper::pair::{answers_of_any_length, Answer};
use std::collections::{BTreeMap, BTreeSet};
use std::fs;
use support::faults::Faults;
use support::{is_installed, Folder, Run};
use ttw::ask;
use ttw::listing::{each_item, PAGE};
use ttw::words::words;

/// A month as the guide's Table 45 has it.
fn month() -> Pair {
    long_pair(&mut Rng::new(45), 45_147, 145_434, 120, true)
}

/// `ttw extract` of the pair in the folder.
fn extract(folder: &Folder, options: &[&str]) -> Run {
    let command = ["extract", "changes1", "changes2", "--out", "parts"];
    folder.ttw(&[&command, options].concat())
}

/// A part as it stands in the folder.
struct Part {
    name: String,
    table: Vec<u8>,
    points: Vec<u8>,
}

fn parts(folder: &Folder) -> Vec<Part> {
    let read = |name: String| Part {
        table: folder.read(&format!("parts/{name}/changes1")),
        points: folder.read(&format!("parts/{name}/changes2")),
        name,
    };
    folder.names("parts").into_iter().map(read).collect()
}

impl Part {
    /// The codes of its records.
    fn codes(&self) -> BTreeSet<Vec<u8>> {
        let records = self.points.chunks_exact(168).skip(1);
        let codes = records.map(|record| record[14..18].to_vec());
        let between = self.points.len() / 168 - 2;
        codes.take(between).collect()
    }

    /// Which piece of a code it is.
    fn piece(&self) -> Option<usize> {
        self.name.split_once('.')?.1.parse().ok()
    }
}

/// The rows that some views refer to, by type and key.
fn rows_for(rows: &[TableRow], views: &[View]) -> Vec<TableRow> {
    let types = [1, 2, 3, 2, 3, 4, 5];
    let named = |view: &View| types.into_iter().zip(view.keys());
    let used: BTreeSet<(u8, u32)> = views.iter().flat_map(named).collect();
    let is_used = |row: &&TableRow| used.contains(&(row.row_type, row.key));
    rows.iter().filter(is_used).cloned().collect()
}

/// The pair that a part of some codes has to be.
fn pair_of(whole: &Pair, codes: &BTreeSet<Vec<u8>>) -> Pair {
    let is_in = |view: &&View| codes.contains(&padded(&view.outward, 4));
    let views: Vec<View> = whole.views.iter().filter(is_in).cloned().collect();
    Pair::new(rows_for(&whole.rows, &views), views)
}

/// What the library says of each view of a part.
fn answers(part: &Part) -> Vec<Answer> {
    let (table, points) = (&part.table, &part.points);
    let views = points.chunks_exact(168).skip(1);
    let mut views = views.filter(|record| record[41] == b'1');
    let mut answers = Vec::new();
    let ask = |first, count, page: &mut [u8]| ask::list(table, points, first, count, page);
    let listed = each_item(&mut vec![0; PAGE], ask, |_, item| {
        let record = views.next().expect("a view");
        let refused = |why: ask::Refusal| paper::Refusal {
            number: why.number,
            file: why.file,
            second: why.second,
            detail: why.detail,
        };
        answers.push(Answer {
            outward: record[14..18].to_vec(),
            letter: *item.heading.as_bytes().last().expect("a letter"),
            label: item.label.map(<[u8]>::to_vec).map_err(refused),
        });
        Ok(())
    });
    listed.expect("an accepted part");
    answers
}

/// The answers of some views by their codes, in order.
fn by_code(answers: Vec<Answer>) -> BTreeMap<Vec<u8>, Vec<Answer>> {
    let mut by_code: BTreeMap<Vec<u8>, Vec<Answer>> = BTreeMap::new();
    for answer in answers {
        let code = answer.outward.clone();
        by_code.entry(code).or_default().push(answer);
    }
    by_code
}

/// Fails unless each part is, byte by byte, the pair of its codes; pieces of AB1
/// together hold its records.
fn parts_are_of_the_whole(whole: &Pair, parts: &[Part]) {
    let mut pieces = Vec::new();
    for part in parts {
        assert!(part.table.len() <= 20_000 * 169 && part.points.len() <= 20_000 * 168);
        let codes = part.codes();
        match part.piece() {
            None => {
                let expected = pair_of(whole, &codes);
                assert!(part.table == expected.table, "{}", part.name);
                assert!(part.points == expected.points, "{}", part.name);
            }
            Some(_) => pieces.push(part),
        }
    }
    pieces.sort_by_key(|part| part.piece());
    let numbers: Vec<Option<usize>> = pieces.iter().map(|part| part.piece()).collect();
    assert_eq!(numbers, (1..=pieces.len()).map(Some).collect::<Vec<_>>());
    let between = |part: &&Part| part.points[168..part.points.len() - 168].to_vec();
    let together: Vec<u8> = pieces.iter().flat_map(between).collect();
    let code = BTreeSet::from([padded("AB1", 4)]);
    let all = pair_of(whole, &code).points;
    assert!(together == all[168..all.len() - 168]);
}

#[test]
fn parts_of_a_month_are_what_the_second_program_reads_of_the_whole() {
    let whole = month();
    let folder = Folder::with_pair(&whole);
    let run = extract(&folder, &["--all"]);
    let parts = parts(&folder);
    let pieces = parts.iter().filter(|part| part.piece().is_some()).count();
    let split = format!("too long for one part, split between views: AB1.1 to AB1.{pieces}");
    let written = format!("parts written: {}", parts.len());
    run.only_tells(0, &format!("code AB1: {split}\n{written}"));
    assert!(pieces >= 2 && parts.len() >= pieces + 6, "{written}");
    parts_are_of_the_whole(&whole, &parts);
    let of_whole = answers_of_any_length(&whole.table, &whole.points).expect("accepted");
    let mut of_parts: BTreeMap<Vec<u8>, Vec<Answer>> = BTreeMap::new();
    let mut in_order: Vec<&Part> = parts.iter().collect();
    in_order.sort_by_key(|part| part.piece());
    for part in in_order {
        for (code, mut answers) in by_code(answers(part)) {
            of_parts.entry(code).or_default().append(&mut answers);
        }
    }
    assert!(of_whole.iter().any(|answer| answer.label.is_err()));
    assert!(of_parts == by_code(of_whole));
}

#[test]
fn packs_from_parts_are_those_of_a_pair_that_holds_all_of_a_code() {
    let whole = long_pair(&mut Rng::new(7), 9_000, 30_000, 40, false);
    let folder = Folder::with_pair(&whole);
    let run = extract(&folder, &["--all", "--most", "9000"]);
    assert_eq!(run.status, Some(0), "{run:?}");
    let mut packs = 0;
    for part in parts(&folder) {
        let cut = format!(
            "\"$TTW\" pack parts/{0}/changes1 parts/{0}/changes2 --all --out packs",
            part.name
        );
        assert_eq!(folder.shell(&cut).status, Some(0), "{}", part.name);
        for code in part.codes() {
            let alone = pair_of(&whole, &BTreeSet::from([code.clone()]));
            let mut pack = vec![0; 1 << 22];
            let built = paper::build(&alone.table, &alone.points, &code, &mut pack);
            let name = String::from_utf8_lossy(&code).trim_end().to_string();
            let cut = folder.read(&format!("packs/{name}.pack"));
            assert!(cut == pack[..built.expect("a pack")], "{name}");
            packs += 1;
        }
    }
    assert!(packs > 30, "{packs}");
}

/// Fails unless each part is the pair of its codes.
fn parts_are_of_their_codes(whole: &Pair, parts: &[Part]) {
    for part in parts {
        let expected = pair_of(whole, &part.codes());
        assert!(part.table == expected.table, "{}", part.name);
        assert!(part.points == expected.points, "{}", part.name);
    }
}

/// A pair of a dozen codes.
fn dozen() -> Pair {
    long_pair(&mut Rng::new(3), 300, 900, 12, true)
}

#[test]
fn parts_hold_as_much_as_there_is_room_for() {
    let whole = dozen();
    let mut records: BTreeMap<String, usize> = BTreeMap::new();
    for view in &whole.views {
        *records.entry(view.outward.clone()).or_default() += view.records().len();
    }
    let folder = Folder::with_pair(&whole);
    extract(&folder, &["--all", "--most", "400"]).only_tells(0, "parts written: 3");
    let parts = parts(&folder);
    parts_are_of_their_codes(&whole, &parts);
    // No code fits into the part before its own.
    for (part, next) in parts.iter().zip(&parts[1..]) {
        let first = next.codes().into_iter().next().expect("a code");
        let first = String::from_utf8_lossy(&first).trim_end().to_string();
        assert!(part.points.len() / 168 + records[&first] > 400, "{first}");
    }
}

#[test]
fn codes_and_areas_are_taken_as_they_are_asked_for() {
    let whole = dozen();
    let all: BTreeSet<&str> = whole
        .views
        .iter()
        .map(|view| view.outward.as_str())
        .collect();
    let of_area = |code: &&&str| code.trim_end_matches(|c: char| !c.is_uppercase()) == "AB";
    assert_eq!(all.iter().filter(of_area).count(), 1, "{all:?}");
    let other = *all.iter().find(|code| **code != "AB1").expect("a code");
    let two = format!("AB1,{other}");
    let name = match "AB1" < other {
        true => format!("AB1-{other}"),
        false => format!("{other}-AB1"),
    };
    for (options, names) in [
        (["--code", "AB1"], ["AB1"]),
        (["--area", "AB"], ["AB1"]),
        (["--code", &two], [name.as_str()]),
    ] {
        let folder = Folder::with_pair(&whole);
        extract(&folder, &options).only_tells(0, "parts written: 1");
        assert_eq!(folder.names("parts"), names);
        parts_are_of_their_codes(&whole, &parts(&folder));
    }
}

#[test]
fn what_is_not_there_is_told_and_the_rest_is_cut() {
    let folder = Folder::with_pair(&worked_pair());
    let told = "code ZE1: there is no record of it\nparts written: 1";
    extract(&folder, &["--code", "ZE1,AB1"]).only_tells(1, told);
    assert_eq!(folder.names("parts"), ["AB1"]);
    let folder = Folder::with_pair(&worked_pair());
    let told = "area ZE: there is no record of it\nparts written: 0";
    extract(&folder, &["--area", "ZE"]).only_tells(1, told);
    assert!(!folder.0.join("parts").exists());
}

#[test]
fn wrong_usage_is_told_before_a_file_is_read() {
    let folder = Folder::with_pair(&worked_pair());
    let bad = "not an outward code, such as AB1 or EC1N in capitals (refusal 12)";
    extract(&folder, &["--code", "AB1,ab2"]).only_tells(1, &format!("code ab2: {bad}"));
    extract(&folder, &["--code", ""]).only_tells(1, &format!("code : {bad}"));
    let one_of = "ttw: extract needs one of --code, --area and --all";
    extract(&folder, &[]).only_tells(2, one_of);
    extract(&folder, &["--all", "--area", "AB"]).only_tells(2, one_of);
    for area in ["AB1", "ab", "Q", ""] {
        let why = "not the letters that an outward code begins with, such as AB or E";
        let told = format!("ttw: area {area}: {why}");
        extract(&folder, &["--area", area]).only_tells(2, &told);
    }
    for most in ["3", "20001"] {
        let told = "ttw: --most takes a number from 4 to 20000";
        extract(&folder, &["--all", "--most", most]).only_tells(2, told);
    }
    let out = folder.ttw(&["extract", "absent", "changes2", "--all"]);
    out.only_tells(2, "ttw: extract needs --out FOLDER");
    fs::create_dir(folder.0.join("parts")).expect("a folder");
    folder.put("parts/.older", b"");
    let told = "ttw: parts is not empty: parts go into a new folder or an empty one";
    extract(&folder, &["--all"]).only_tells(2, told);
}

/// A refusal by the second program, as the command says it.
fn said(why: paper::Refusal) -> String {
    let file = ["changes1", "changes2"][usize::from(why.file) - 1];
    let why = ask::Refusal {
        number: why.number,
        file: why.file,
        second: why.second,
        detail: why.detail,
    };
    format!("{file}: {}", words(&why, "files"))
}

/// Fails unless the files are refused so, and nothing is written.
#[track_caller]
fn refused(folder: &Folder, told: &str) {
    extract(folder, &["--all"]).only_tells(1, told);
    assert!(!folder.0.join("parts").exists());
}

#[test]
fn damage_of_every_kind_is_told_with_file_and_record() {
    let mut told = 0;
    for seed in 0..4 {
        for number in 2..=6 {
            for place in Place::ALL {
                let rng = &mut Rng::new(seed);
                let good = worked_pair();
                let damaged = [
                    ("changes1", damaged_table(rng, number, place)),
                    ("changes2", damaged_points(rng, number, place)),
                ];
                for (name, damaged) in damaged {
                    let Some(damaged) = damaged else { continue };
                    let folder = Folder::with_pair(&good);
                    folder.put(name, &damaged.file);
                    refused(&folder, &said(damaged.refusal));
                    told += 1;
                }
            }
        }
    }
    assert!(told > 60, "{told}");
}

#[test]
fn a_length_of_no_whole_records_is_told_with_its_record() {
    let pair = worked_pair();
    let folder = Folder::with_pair(&pair);
    let lengths = [
        (
            0,
            "there are no two records, a header and a trailer (refusal 1)",
        ),
        (
            168,
            "there are no two records, a header and a trailer (refusal 1)",
        ),
        (167, "record 1, the last, has 167 bytes of 168 (refusal 1)"),
        (505, "record 4, the last, has 1 bytes of 168 (refusal 1)"),
    ];
    for (length, why) in lengths {
        folder.put("changes2", &pair.points[..length]);
        refused(&folder, &format!("changes2: {why}"));
    }
    let line = "mkfifo pipe; \"$TTW\" extract pipe changes2 --all --out parts & \
                cat changes1 >pipe; wait $!";
    let told = "ttw: cannot read pipe: it is not a plain file";
    folder.shell(line).only_tells(2, told);
}

/// Around the ends of the blocks in which the files are read, what is told is
/// what the second program says of the whole.
#[test]
fn damage_is_told_where_blocks_meet() {
    let whole = long_pair(&mut Rng::new(11), 17_000, 34_000, 9, false);
    let folder = Folder::with_pair(&whole);
    let damage: [fn(&mut [u8]); 4] = [
        |two| two[20] = b'?',
        |two| two[41] ^= 2,
        |two| two.copy_within(168.., 0),
        |two| two.rotate_left(168),
    ];
    let mut numbers = BTreeSet::new();
    for place in (16_380..16_390).chain(32_764..32_774) {
        for change in damage {
            let mut points = whole.points.clone();
            change(&mut points[place * 168..(place + 2) * 168]);
            folder.put("changes2", &points);
            if let Err(why) = answers_of_any_length(&whole.table, &points) {
                numbers.insert(why.number);
                refused(&folder, &said(why));
            }
        }
    }
    assert_eq!(numbers, BTreeSet::from([4, 5, 6]));
    for place in 16_380..16_390 {
        let mut table = whole.table.clone();
        table[place * 169..(place + 2) * 169].rotate_left(169);
        folder.put("changes1", &table);
        let why = answers_of_any_length(&table, &whole.points).expect_err("out of order");
        refused(&folder, &said(why));
    }
}

/// A file with a line end behind each record.
fn with_ends(file: &[u8], record: usize, end: &[u8]) -> Vec<u8> {
    let records = file.chunks_exact(record);
    records.flat_map(|record| [record, end].concat()).collect()
}

#[test]
fn line_ends_are_told_and_taken_out() {
    let whole = dozen();
    let plain = Folder::with_pair(&whole);
    extract(&plain, &["--all", "--most", "400"]).only_tells(0, "parts written: 3");
    for (end, name) in [(&b"\r\n"[..], "CR LF"), (b"\n", "LF")] {
        let folder = Folder::with_pair(&whole);
        folder.put("changes1", &with_ends(&whole.table, 169, end));
        let why = "stands behind record 1: --line-ends takes such out";
        refused(&folder, &format!("changes1: a line end, {name}, {why}"));
        let taken = ["--all", "--most", "400", "--line-ends"];
        extract(&folder, &taken).only_tells(0, "parts written: 3");
        let same = |(one, other): (Part, Part)| {
            one.name == other.name && one.table == other.table && one.points == other.points
        };
        assert!(parts(&folder).into_iter().zip(parts(&plain)).all(same));
        fs::remove_dir_all(folder.0.join("parts")).expect("removed");
        let mut points = with_ends(&whole.points, 168, end);
        points[17 * (168 + end.len()) - 1] = b' ';
        folder.put("changes2", &points);
        let why = "record 17 has not the line end of record 1 behind it (refusal 1)";
        extract(&folder, &taken).only_tells(1, &format!("changes2: {why}"));
        assert!(!folder.0.join("parts").exists());
    }
}

#[test]
fn a_code_that_is_too_long_is_split_between_views() {
    let whole = dozen();
    let folder = Folder::with_pair(&whole);
    let run = extract(&folder, &["--code", "AB1", "--most", "60"]);
    let parts = parts(&folder);
    let pieces = parts.len();
    assert!(pieces > 2, "{run:?}");
    let split = format!("too long for one part, split between views: AB1.1 to AB1.{pieces}");
    run.only_tells(0, &format!("code AB1: {split}\nparts written: {pieces}"));
    parts_are_of_the_whole(&whole, &parts);
    for part in &parts {
        let records = [part.table.len() / 169, part.points.len() / 168];
        assert!(records.iter().all(|records| *records <= 60));
        let views = answers(part).len();
        assert!(views > 1, "{}", part.name);
    }
    let folder = Folder::with_pair(&worked_pair());
    let told = "ttw: code AB1: a view alone refers to more rows than a part may have";
    extract(&folder, &["--all", "--most", "6"]).only_tells(2, told);
    assert!(!folder.0.join("parts").exists());
}

/// Fails unless what stands in the folder of parts has its name and is accepted.
fn parts_are_whole(folder: &Folder) {
    for part in parts(folder) {
        assert!(!part.name.starts_with('.'), "{}", part.name);
        assert!(ask::table(&part.table).is_ok() && ask::points(&part.points).is_ok());
    }
}

#[test]
fn a_part_that_is_not_what_was_written_is_removed() {
    let folder = Folder::with_pair(&worked_pair());
    let faults = Faults::new(&folder);
    let run = |spoil: &str| {
        let command = ["extract", "changes1", "changes2", "--out", "parts", "--all"];
        let run = faults.spoiled(spoil, &command);
        assert!(folder.names("parts").is_empty());
        run
    };
    let told = "ttw: part AB1: points: record 2 is malformed at byte 19 (refusal 4); it is removed";
    run("changes2 186 ?").only_tells(2, told);
    let told = "ttw: part AB1: table: record 4 is not above the record before it (refusal 5); \
                it is removed";
    run("changes1 507 2").only_tells(2, told);
    let told = "ttw: part AB1: of AB1 it has 2 records and 0 live views, \
                the input 2 records and 1 live views; it is removed";
    run("changes2 208 D").only_tells(2, told);
    // Of the second view the code becomes another: both are told as one lacks.
    let told = "ttw: part AB1: of AB1 it has 1 records and 1 live views, \
                the input 2 records and 1 live views; it is removed";
    run("changes2 351 C").only_tells(2, told);
}

#[test]
fn a_part_that_cannot_be_written_leaves_those_before_it() {
    let whole = dozen();
    let folder = Folder::with_pair(&whole);
    let faults = Faults::new(&folder);
    let command = ["extract", "changes1", "changes2", "--out", "parts"];
    let command = [&command[..], &["--all", "--most", "400"]].concat();
    let failing = |fail: &str, file: &str| {
        let _ = fs::remove_dir_all(folder.0.join("parts"));
        let seen = faults.ttw(&[("FAULTS_FAIL", fail), ("FAULTS_FILE", file)], &command);
        parts_are_whole(&folder);
        let told = seen.run.told.lines().last().expect("words").to_string();
        assert!(told.starts_with("ttw: cannot write parts/"), "{told}");
        assert_eq!(seen.run.status, Some(2));
        folder.names("parts").len()
    };
    assert_eq!(failing("write 2 2 28", "changes2"), 0);
    assert_eq!(failing("write 5 5 28", "changes2"), 1);
    assert_eq!(failing("fsync 3 3 5", "changes1"), 2);
    assert_eq!(failing("rename 2 2 5", ""), 1);
    assert_eq!(failing("open 1 1000 17", ".part"), 0);
    let line = "ulimit -f 20; exec \"$TTW\" extract changes1 changes2 --all --out limited";
    let run = folder.shell(line);
    assert!(
        run.told.ends_with("File too large (os error 27)\n"),
        "{run:?}"
    );
    assert!(folder.names("limited").is_empty());
}

#[test]
fn no_part_stays_where_memory_ends() {
    let folder = Folder::with_pair(&worked_pair());
    let faults = Faults::new(&folder);
    let command = ["extract", "changes1", "changes2", "--out", "parts", "--all"];
    let mut told = 0;
    loop {
        let fail = format!("memory {0} {0} 12", told + 1);
        let seen = faults.ttw(&[("FAULTS_FAIL", &fail)], &command);
        if seen.run.status == Some(0) {
            break;
        }
        seen.run.only_tells(2, "ttw: no memory is left");
        parts_are_whole(&folder);
        let _ = fs::remove_dir_all(folder.0.join("parts"));
        told += 1;
    }
    assert!(told > 5, "{told}");
}

#[test]
fn a_kill_leaves_whole_parts() {
    let folder = Folder::with_pair(&dozen());
    let mut killed = 0;
    for milliseconds in (2..80).step_by(6) {
        let extract = "\"$TTW\" extract changes1 changes2 --all --most 60 --out parts";
        let line = format!("rm -rf parts; timeout -s KILL 0.{milliseconds:03} {extract}");
        killed += u32::from(folder.shell(&line).status != Some(0));
        let names = folder.names("parts");
        for name in names.iter().filter(|name| !name.starts_with('.')) {
            let check = format!("\"$TTW\" check parts/{name}/changes1 parts/{name}/changes2");
            assert_eq!(folder.shell(&check).status, Some(0), "{name}");
        }
    }
    assert!(killed > 0);
}

#[test]
fn progress_is_shown_on_a_terminal_alone() {
    let folder = Folder::with_pair(&long_pair(&mut Rng::new(2), 300, 17_000, 5, true));
    if !is_installed("script") {
        return; // There is no other terminal to try it on.
    }
    let command = "\"$TTW\" extract changes1 changes2 --all --out parts";
    let run = folder.shell(&format!("script -qec '{command}' /dev/null </dev/null"));
    assert_eq!(run.status, Some(0), "{run:?}");
    for step in 1..=2 {
        let shown = format!("\r\u{1b}[Kreading the points file ({step} of 2)");
        assert!(run.out.contains(&shown), "{run:?}");
    }
}
