//! The largest files, 20,000 records each in a pair and 1,000,000 in a Mainfile
//! set: every call in a time that only work in proportion to the files can keep.

use paper::mainfile::{self, Set};
use paper::make::{exact_pair, long_file, long_set, Rng};
use paper::{
    build, check_points, check_table, code_label, code_labels, label_of, labels, live, open,
    pack_label, pack_labels, views, Refusal,
};
use std::time::{Duration, Instant};

/// Far above what a call takes, under an emulator too; far below what a
/// quadratic one would.
const LONGEST: Duration = Duration::from_secs(2);

/// The same for files of a Mainfile set, of which a run took 12 s under an
/// emulator on a machine that had other work.
const LONGEST_MAIN: Duration = Duration::from_secs(30);

fn timed<T>(name: &str, call: impl FnOnce() -> T) -> T {
    timed_within(LONGEST, name, call)
}

fn timed_within<T>(longest: Duration, name: &str, call: impl FnOnce() -> T) -> T {
    let start = Instant::now();
    let answer = call();
    let taken = start.elapsed();
    println!("{name}: {taken:?}");
    assert!(taken < longest, "{name}: {taken:?}");
    answer
}

#[test]
fn the_largest_files_take_milliseconds() {
    let pair = exact_pair(&mut Rng::new(8), 20_000, 20_000);
    let (table, points) = (&pair.table, &pair.points);
    let last = pair.views.len() as u64;
    assert_eq!(timed("table", || check_table(table)), Ok(20_000));
    assert_eq!(timed("points", || check_points(points)), Ok(20_000));
    assert_eq!(timed("views", || views(points)), Ok(pair.views.len()));
    let in_code = timed("live", || live(points, b"AB1 ")).expect("accepted");
    assert!(in_code > 2_000);
    assert!(timed("label", || label_of(table, points, last)).is_ok());
    let mut out = [0; 499];
    let k = in_code as u64;
    assert!(timed("code label", || code_label(
        table, points, b"AB1 ", k, &mut out
    ))
    .is_ok());
    let mut pack = vec![0; 10_000_000];
    let length = timed("build", || build(table, points, b"AB1 ", &mut pack)).expect("a pack");
    let pack = &pack[..length];
    assert_eq!(timed("open", || open(pack)), Ok(in_code));
    let mut packed = [0; 499];
    assert!(timed("pack label", || pack_label(pack, k, &mut packed)).is_ok());
    assert_eq!(packed, out);
}

#[test]
fn a_run_over_the_largest_files_takes_milliseconds() {
    let pair = exact_pair(&mut Rng::new(8), 20_000, 20_000);
    let (table, points) = (&pair.table, &pair.points);
    let all = pair.views.len() as u64;
    let mut out = vec![0; 499 * pair.views.len()];
    let run = timed("labels", || labels(table, points, 1, all, &mut out)).expect("accepted");
    assert_eq!((run.labels, run.stop), (all, None));
    let code = b"AB1 ";
    let most = u64::MAX;
    let from_files = timed("code labels", || {
        code_labels(table, points, code, 1, most, &mut out)
    });
    let mut pack = vec![0; 10_000_000];
    let length = build(table, points, code, &mut pack).expect("a pack");
    let pack = &pack[..length];
    let mut packed = vec![0; out.len()];
    let from_pack = timed("pack labels", || pack_labels(pack, 1, most, &mut packed));
    assert_eq!(from_pack, from_files);
    let bytes = from_pack.expect("accepted").bytes;
    assert!(bytes > 100_000 && packed[..bytes] == out[..bytes]);
}

#[test]
fn files_of_a_mainfile_set_are_accepted_at_their_limit() {
    // One of each shape: localities, descriptors, organisations, addresses.
    for file in [1, 3, 6, 7] {
        let bytes = long_file(file, 1_000_000);
        let index = usize::from(file) - 1;
        let mut set = Set::default();
        set[index] = &bytes;
        let records = if file == 3 { 10_001 } else { 1_000_000 };
        assert_eq!(
            timed_within(LONGEST_MAIN, "file", || mainfile::check_each(set))[index],
            Ok(records)
        );
        let longer = [&bytes[..], &bytes[bytes.len() - bytes.len() / records..]].concat();
        set[index] = &longer;
        let why = match file {
            3 => Refusal::of_file(3, 3, 10_002),
            _ => Refusal::of_file(file, 1, 0),
        };
        assert_eq!(mainfile::check_each(set)[index], Err(why));
    }
}

#[test]
fn a_long_mainfile_set_gives_labels_and_packs() {
    let files = long_set(50_000);
    let set = files.each_ref().map(Vec::as_slice);
    let mut records = [50_000; 7];
    records[2] = 10_001;
    assert_eq!(
        timed_within(LONGEST_MAIN, "check", || mainfile::check(set)),
        Ok(records)
    );
    let mut out = vec![0; 499 * 50_000];
    let run = timed_within(LONGEST_MAIN, "labels", || {
        mainfile::labels(set, 1, 49_998, &mut out)
    })
    .expect("accepted");
    assert_eq!((run.labels, run.stop), (49_998, None));
    let code = b"AB54";
    let count = mainfile::live(&files[6], code).expect("accepted") as u64;
    assert!((500..600).contains(&count));
    let length = timed_within(LONGEST_MAIN, "build", || {
        mainfile::build(set, code, &mut out)
    })
    .expect("a pack");
    assert_eq!(open(&out[..length]), Ok(count as usize));
    for k in [1, count] {
        let (mut ours, mut packed) = ([0; 499], [0; 499]);
        let written = timed_within(LONGEST_MAIN, "code label", || {
            mainfile::code_label(set, code, k, &mut ours)
        });
        assert!(written.is_ok());
        assert_eq!(pack_label(&out[..length], k, &mut packed), written);
        assert_eq!(packed, ours);
    }
}
