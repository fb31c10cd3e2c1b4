//! `ttw main`: the seven files are told apart, what is wrong with them is named,
//! and what is printed and cut is what the second program answers.

mod support;

use paper::mainfile;
use paper::make::{damaged_main, exact_set, main_set, padded, samples, MainSet, Place, Rng};
use std::collections::BTreeMap;
use std::fs;
use support::{is_installed, Folder, Run, SET};
use ttw::ask::Refusal;
use ttw::words::{main_words, MAIN_NAMES};

fn desk(files: &[Vec<u8>; 7]) -> Folder {
    let folder = Folder::new();
    folder.put_set(files);
    folder
}

/// `ttw main` with a command on the set's folder.
fn asked(folder: &Folder, command: &str, options: &[&str]) -> Run {
    folder.ttw(&[&["main", command, "set"], options].concat())
}

/// The paths of the files, in the order of these places.
fn paths(places: impl IntoIterator<Item = usize>) -> Vec<String> {
    let path = |place: usize| format!("set/{}", SET[place]);
    places.into_iter().map(path).collect()
}

/// `ttw main check` with these files.
fn check(folder: &Folder, files: Vec<String>) -> Run {
    let words = ["main", "check"].map(str::to_string);
    folder.ttw(&[words.to_vec(), files].concat())
}

const COUNTS: &str = "\
locality: 5 records
thoroughfare: 5 records
descriptor: 4 records
building: 5 records
sub building: 5 records
organisation: 7 records
address: 54 records, 52 views
";

#[test]
fn the_files_may_come_in_any_order_or_in_a_folder() {
    let folder = desk(&samples::main_set().files);
    asked(&folder, "check", &[]).prints(COUNTS);
    for first in 0..7 {
        let turned = (0..7).map(|place| (first + place * 3) % 7);
        check(&folder, paths(turned)).prints(COUNTS);
    }
    folder.put("set/notes", b"what is in this folder");
    folder.put("set/.hidden", &samples::main_set().files[0]);
    fs::create_dir(folder.0.join("set/older")).expect("a folder");
    asked(&folder, "check", &[]).prints(COUNTS);
    let link = folder.shell("ln -s set/a address; \"$TTW\" main check address set/[b-g]");
    link.prints(COUNTS);
    let piped = folder.shell("cat set/a | \"$TTW\" main check /dev/stdin set/[b-g]");
    piped.prints(COUNTS);
}

#[test]
fn a_file_that_is_missing_is_named() {
    let folder = desk(&samples::main_set().files);
    for (place, name) in MAIN_NAMES.iter().enumerate() {
        let others = paths((0..7).filter(|other| *other != place));
        let told = format!("ttw: the {name} file is missing");
        check(&folder, others).only_tells(2, &told);
    }
    let told = "ttw: these files are missing: locality, thoroughfare, address";
    check(&folder, paths([2, 3, 4, 5])).only_tells(2, told);
    let none = "ttw: main check takes seven files or a folder, given: none; see: ttw help main";
    check(&folder, Vec::new()).only_tells(2, none);
    fs::remove_file(folder.0.join("set/e")).expect("it was there");
    folder.put("set/notes", b"THDESCRI");
    let told = "ttw: the descriptor file is missing; set/notes begins as none of the seven files";
    asked(&folder, "codes", &[]).only_tells(2, told);
    folder.put("set/more", b"");
    let told = "ttw: the descriptor file is missing; 2 files there begin as none of the seven";
    asked(&folder, "codes", &[]).only_tells(2, told);
}

#[test]
fn a_file_that_comes_twice_is_named() {
    let folder = desk(&samples::main_set().files);
    for (place, name) in MAIN_NAMES.iter().enumerate() {
        let path = &paths([place])[0];
        let told = format!("ttw: the {name} file is given more than once: {path}, {path}");
        check(&folder, paths((0..7).chain([place]))).only_tells(2, &told);
    }
    let told = "ttw: the address file is missing; \
                the locality file is given more than once: set/g, set/g";
    check(&folder, paths([0, 0, 1, 2, 3, 4, 5])).only_tells(2, told);
}

#[test]
fn a_file_of_none_of_the_kinds_is_named() {
    let folder = desk(&samples::main_set().files);
    folder.put("empty", b"");
    let strange = [paths(0..7), vec!["empty".to_string()]].concat();
    check(&folder, strange).only_tells(2, "ttw: empty begins as none of the seven files");
    let absent = [paths(0..7), vec!["absent".to_string()]].concat();
    let told = "ttw: cannot read absent: No such file or directory (os error 2)";
    check(&folder, absent).only_tells(2, told);
    folder.ttw(&["main", "check", "absent"]).only_tells(2, told);
}

#[test]
fn commands_and_options_that_there_are_not() {
    let folder = desk(&samples::main_set().files);
    let see = "see: ttw help main";
    let none = format!("ttw: main needs one of: check, codes, labels, pack, csv, extract; {see}");
    folder.ttw(&["main"]).only_tells(2, &none);
    let told = format!("ttw: there is no command main show; {see}");
    folder.ttw(&["main", "show", "set"]).only_tells(2, &told);
    for (command, option) in [
        ("check", "--view=1"),
        ("codes", "--out=x"),
        ("labels", "--all"),
        ("pack", "--nth=1"),
    ] {
        let name = option.split('=').next().expect("a name");
        let told = format!("ttw: there is no option {name} here");
        asked(&folder, command, &[option]).only_tells(2, &told);
    }
    let told = "ttw: --nth needs --code";
    asked(&folder, "labels", &["--nth", "1"]).only_tells(2, told);
    asked(&folder, "pack", &["--all"]).only_tells(2, "ttw: pack needs --out FOLDER");
}

/// A file of a set that is refused for itself is told by its name. Its length and
/// its header's name are left: they tell it apart.
#[test]
fn a_refused_file_is_told_by_its_name() {
    let good = samples::main_set();
    let mut told = 0;
    for (file, name) in (1..).zip(MAIN_NAMES) {
        for number in 2..=5 {
            for place in Place::ALL {
                let rng = &mut Rng::new(u64::from(10 * file + number));
                let Some(damaged) = damaged_main(rng, file, number, place) else {
                    continue;
                };
                let mut files = good.files.clone();
                files[usize::from(file) - 1] = damaged.file;
                let run = asked(&desk(&files), "check", &[]);
                if run.status == Some(2) {
                    assert_eq!(number, 2, "{run:?}");
                    continue;
                }
                assert_eq!((run.status, run.out.as_str()), (Some(1), ""));
                assert!(run.told.starts_with(&format!("{name}: record ")), "{run:?}");
                assert!(run.told.ends_with(&format!("(refusal {number})\n")));
                told += 1;
            }
        }
    }
    assert!(told > 30, "{told}");
}

#[test]
fn a_longer_file_is_refused_and_fills_no_memory() {
    let folder = desk(&samples::main_set().files);
    let path = folder.0.join("set/e");
    let long = fs::OpenOptions::new().write(true).open(path);
    long.expect("a file")
        .set_len(1 << 40)
        .expect("a file with holes");
    let line = "ulimit -v 1000000; exec \"$TTW\" main check set";
    let length = "the length is not that of 2 to 1,000,000 whole records (refusal 1)";
    folder
        .shell(line)
        .only_tells(1, &format!("descriptor: {length}"));
}

#[test]
fn reading_shows_progress_on_a_terminal_alone() {
    let folder = desk(&samples::main_set().files);
    assert_eq!(asked(&folder, "check", &[]).told, "");
    if !is_installed("script") {
        return; // There is no other terminal to try it on.
    }
    let check = "\"$TTW\" main check set";
    let on_terminal = folder.shell(&format!("script -qec '{check}' /dev/null </dev/null"));
    assert_eq!(on_terminal.status, Some(0), "{on_terminal:?}");
    for (name, number) in MAIN_NAMES.iter().zip(1..) {
        let shown = format!("\r\u{1b}[Kreading the {name} file ({number} of 7)");
        assert!(on_terminal.out.contains(&shown), "{on_terminal:?}");
    }
}

/// What `ttw main labels` prints of a listing by the second program.
fn in_words(listing: &str) -> String {
    let mut view = String::new();
    let mut text = String::new();
    for line in listing.lines() {
        let Some(rest) = line.strip_prefix("refused ") else {
            if line.starts_with("view ") {
                view = line.to_string();
            }
            text += &format!("{line}\n");
            continue;
        };
        let (number, detail) = rest.split_once(' ').expect("a detail");
        let why = Refusal {
            number: number.parse().expect("a number"),
            file: 0,
            second: 0,
            detail: detail.parse().expect("a detail"),
        };
        text += &format!("refused: {}\n", main_words(&why, &view));
    }
    text
}

/// The second program's listing of a whole set.
fn listing(made: &MainSet) -> String {
    let mut out = vec![0; 520 * (made.addresses.len() + 1)];
    let count = made.addresses.len() as u64;
    let run = mainfile::list(made.set(), 1, count, &mut out).expect("accepted");
    out.truncate(run.bytes);
    String::from_utf8(out).expect("text")
}

#[test]
fn every_label_is_the_second_programs() {
    let mut sets = vec![samples::main_set(), exact_set(&mut Rng::new(3), 400)];
    sets.extend((0..25).map(|seed| main_set(&mut Rng::new(seed), 40)));
    for made in sets {
        let folder = desk(&made.files);
        let plain = in_words(&listing(&made));
        let refused = plain.matches("refused: ").count();
        let run = asked(&folder, "labels", &[]);
        assert_eq!(run.status, Some(i32::from(refused > 0)));
        assert_eq!(run.out, plain);
        let printed = made.addresses.len() - refused;
        let told = format!("labels printed: {printed}, refused: {refused}\n");
        assert_eq!(run.told, told);
    }
}

#[test]
fn single_labels_and_runs_are_printed_as_they_stand() {
    let made = exact_set(&mut Rng::new(9), 60);
    let folder = desk(&made.files);
    let label = |view| {
        let mut out = vec![0; 499];
        let length = mainfile::label(made.set(), view, &mut out).expect("a label");
        String::from_utf8_lossy(&out[..length]).into_owned()
    };
    asked(&folder, "labels", &["--view", "7"]).prints(&label(7));
    let run: String = (3..23).map(label).collect();
    asked(&folder, "labels", &["--view", "3", "--count", "20"]).prints(&run);
    let code = made.addresses[0].outward.as_str();
    asked(&folder, "labels", &["--code", code, "--nth", "1"]).prints(&label(1));
    let beyond = asked(&folder, "labels", &["--view", "58", "--count", "2"]);
    assert_eq!((beyond.status, beyond.out), (Some(1), label(58)));
    let told = "view 59: there is none of that number (refusal 7)\n";
    assert_eq!(beyond.told, told);
    let bad = "code ab1: not an outward code, such as AB1 or EC1N in capitals (refusal 12)";
    asked(&folder, "labels", &["--code", "ab1"]).only_tells(1, bad);
}

#[test]
fn codes_and_packs_are_the_second_programs_and_packs_show_their_labels() {
    for seed in 0..12 {
        let made = main_set(&mut Rng::new(seed), 30);
        let folder = desk(&made.files);
        let mut codes: BTreeMap<Vec<u8>, usize> = BTreeMap::new();
        for address in &made.addresses {
            *codes.entry(padded(&address.outward, 4)).or_default() += 1;
        }
        let name = |code: &[u8]| String::from_utf8_lossy(code).trim_end().to_string();
        let line = |(code, count): (&Vec<u8>, &usize)| format!("{} {count}\n", name(code));
        let lines: String = codes.iter().map(line).collect();
        asked(&folder, "codes", &[]).prints(&lines);
        asked(&folder, "pack", &["--all", "--out", "packs"]);
        for code in codes.keys() {
            let mut plain = vec![0; 40_000];
            let built = mainfile::build(made.set(), code, &mut plain);
            let pack = format!("packs/{}.pack", name(code));
            let path = folder.0.join(&pack);
            match built {
                Ok(length) => {
                    assert!(fs::read(&path).expect("a pack") == plain[..length]);
                    let shown = folder.ttw(&["show", &pack]);
                    assert_eq!(shown.status, Some(0));
                }
                Err(_) => assert!(!path.exists()),
            }
        }
    }
}

#[test]
fn a_code_that_is_refused_names_its_view() {
    let folder = desk(&samples::main_set().files);
    let run = asked(&folder, "pack", &["--all", "--out", "packs"]);
    let why = "the locality's key is zero or has no row in the locality file (refusal 9, field 1)";
    let told = format!("code AB2: view 39: {why}\npacks written: 2, codes refused: 1");
    run.only_tells(1, &told);
    assert_eq!(folder.names("packs"), ["AB1.pack", "AB10.pack"]);
}
