//! Times each exported call beside the same call of a plain version, on the same
//! input and in the same run, and prints one table. Then runs and listings over
//! whole files and packs, the command over a whole file, the pack's size beside a
//! database of the same rows, and each call on a Mainfile set of full length.

mod asked;
mod books;
mod chunks;
mod command;
mod input;
mod plain;
mod plain_book;
mod plain_build;
mod plain_csv;
mod plain_fields;
mod plain_files;
mod plain_label;
mod plain_main;
mod plain_pack;
mod same;
mod sets;
mod sqlite;

use asked::{Call, Pass, Question};
use input::{far_pack, pair_of_codes, pair_of_one_key, Input};
use paper::make::{space_points, space_table, End, Pair};
use same::same;
use std::hint::black_box;
use std::time::Instant;
use ttw::calls;

/// Records of each file.
const SIZES: [usize; 3] = [1_000, 5_000, 20_000];

/// How often a call is timed.
const RUNS: usize = 41;

/// The bars at 20,000 records: how many times the plain version a call may take,
/// and how many one that writes rows of CSV PAF, how many times its own time at
/// 5,000, and how many times the file's check its codes may take.
const MOST_RATIO: f64 = 1.0;
const MOST_ROWS: f64 = 1.1;
const MOST_GROWTH: f64 = 5.0;
const MOST_CODES: f64 = 10.0;

/// Bytes that hold any item of a listing.
const ITEM: usize = 520;

/// Microseconds of the library, of the plain version and of one bare pass.
#[derive(Clone, Copy)]
struct Times {
    library: f64,
    plain: f64,
    bare: Option<f64>,
}

/// One bare pass over the bytes: their sum in one byte.
fn bare_pass(bytes: &[u8]) -> u64 {
    let sum = bytes
        .iter()
        .fold(0, |sum: u8, byte| sum.wrapping_add(*byte));
    u64::from(sum)
}

/// One bare walk over rows: the longest field, as it is found byte by byte. A sum
/// takes many bytes at once, but where fields end has to be found out.
fn bare_walk(csv: &[u8]) -> u64 {
    let (mut longest, mut start) = (0, 0);
    for (at, byte) in csv.iter().enumerate() {
        if matches!(byte, b',' | b'\n') {
            longest = longest.max(at - start);
            start = at + 1;
        }
    }
    longest as u64
}

/// How many seconds something takes.
fn timed(work: impl FnOnce() -> u64) -> f64 {
    let start = Instant::now();
    black_box(work());
    start.elapsed().as_secs_f64()
}

/// Times these by turns: the least of each in microseconds, since whatever else the
/// machine does only adds to it.
fn by_turns<const N: usize>(runs: usize, mut all: [&mut dyn FnMut() -> u64; N]) -> [f64; N] {
    let mut least = [f64::INFINITY; N];
    for _ in 0..runs {
        for (least, work) in least.iter_mut().zip(&mut all) {
            *least = least.min(timed(work));
        }
    }
    least.map(|seconds| seconds * 1e6)
}

/// Times both sides of a call, and a bare pass where it is one.
fn times(call: &Call, input: &Input) -> Times {
    let mut room = vec![0; input.pack.len()];
    let ask = |question: Question, room: &mut [u8], bytes: &mut u64| {
        question(black_box(input), room, bytes)
    };
    same(
        call.name,
        room.len(),
        |room, bytes| ask(call.library, room, bytes),
        |room, bytes| ask(call.plain, room, bytes),
    );
    let mut other = room.clone();
    let [library, plain, bare] = by_turns(
        RUNS,
        [
            &mut || ask(call.library, &mut room, &mut 0),
            &mut || ask(call.plain, &mut other, &mut 0),
            &mut || {
                let bare = |pass: Pass| (pass.bare)(black_box((pass.file)(input)));
                call.pass.map_or(0, bare)
            },
        ],
    );
    Times {
        library,
        plain,
        bare: call.pass.map(|_| bare),
    }
}

/// A figure, marked where it is over its bar.
fn barred(figure: f64, bar: f64) -> String {
    let mark = if figure > bar { "!" } else { "" };
    format!("{figure:.2}{mark}")
}

fn print_call(call: &Call, inputs: &[Input]) {
    let times: Vec<Times> = inputs.iter().map(|input| times(call, input)).collect();
    let last = times[times.len() - 1];
    let growth = last.library / times[times.len() - 2].library;
    let passes = call.pass.zip(last.bare).map(|(pass, bare)| {
        let most = pass.most;
        barred(last.library / bare, most)
    });
    print!("{:<15}", call.name);
    for Times { library, plain, .. } in times {
        print!(" {library:>9.1} {plain:>9.1}");
    }
    println!(
        " {:>6} {:>6} {:>6}",
        barred(last.library / last.plain, call.most),
        barred(growth, MOST_GROWTH),
        passes.unwrap_or_default()
    );
}

/// One run or listing over so many labels: the time of both sides, and what a label
/// costs beyond a run of none, which is the check. So often it is timed, and so many times the plain version it may take.
fn print_whole(
    (what, runs, most): (&str, usize, f64),
    count: u64,
    library: impl Fn(u64, &mut [u8], &mut u64) -> u64,
    plain: impl Fn(u64, &mut [u8], &mut u64) -> u64,
) {
    let mut room = vec![0; count as usize * ITEM];
    same(
        what,
        room.len(),
        |room, bytes| library(count, room, bytes),
        |room, bytes| plain(count, room, bytes),
    );
    let mut other = room.clone();
    let [ours, theirs, check, other_check] = by_turns(
        runs,
        [
            &mut || library(count, &mut room, &mut 0),
            &mut || plain(count, &mut other, &mut 0),
            &mut || library(0, &mut [], &mut 0),
            &mut || plain(0, &mut [], &mut 0),
        ],
    );
    let each = |whole: f64, check: f64| (whole - check) * 1e3 / count as f64;
    println!(
        "{what}, {count}: {ours:.0} beside {theirs:.0}, ratio {}; beyond the check {:.0} ns each beside {:.0}",
        barred(ours / theirs, most),
        each(ours, check),
        each(theirs, other_check)
    );
}

/// A run or a listing over the views of a pair, from number 1 on.
type PairRun = fn(&[u8], &[u8], u64, u64, &mut [u8], &mut u64) -> u64;

/// All labels of a pair, as one run and as one listing.
fn print_whole_pair(what: &str, pair: &Pair) {
    let runs: [(&str, PairRun, PairRun); 2] = [
        ("ttw_labels", calls::labels, plain::labels),
        ("ttw_list", calls::list, plain::list),
    ];
    for (name, library, plain) in runs {
        let ask = |run: PairRun| {
            move |count, room: &mut [u8], bytes: &mut u64| {
                run(&pair.table, &pair.points, 1, count, room, bytes)
            }
        };
        let what = format!("{name}, {what}");
        print_whole(
            (&what, RUNS, MOST_RATIO),
            pair.views.len() as u64,
            ask(library),
            ask(plain),
        );
    }
}

/// The same over the points of a pack, or over the rows of a CSV file.
type PackRun = fn(&[u8], u64, u64, &mut [u8], &mut u64) -> u64;

fn print_whole_pack(
    Input {
        pack, last_point, ..
    }: &Input,
) {
    let runs: [(&str, PackRun, PackRun); 2] = [
        ("ttw_pack_labels", calls::pack_labels, plain::pack_labels),
        ("ttw_pack_list", calls::pack_list, plain::pack_list),
    ];
    for (name, library, plain) in runs {
        let ask = |run: PackRun| {
            move |count, room: &mut [u8], bytes: &mut u64| run(pack, 1, count, room, bytes)
        };
        let what = format!("{name}, its pack");
        print_whole(
            (&what, RUNS, MOST_RATIO),
            *last_point,
            ask(library),
            ask(plain),
        );
    }
}

/// All rows of a pair, and all labels of the file that they are.
fn print_whole_csv(Input { carried, csv, .. }: &Input) {
    let count = carried.views.len() as u64;
    let rows = |run: PairRun| {
        move |count, room: &mut [u8], bytes: &mut u64| {
            run(&carried.table, &carried.points, 1, count, room, bytes)
        }
    };
    print_whole(
        ("ttw_csv_rows, all views", RUNS, MOST_ROWS),
        count,
        rows(calls::csv_rows),
        rows(plain::csv_rows),
    );
    let runs: [(&str, PackRun, PackRun); 2] = [
        ("ttw_csv_labels", calls::csv_labels, plain::csv_labels),
        ("ttw_csv_list", calls::csv_list, plain::csv_list),
    ];
    for (name, library, plain) in runs {
        let ask = |run: PackRun| {
            move |count, room: &mut [u8], bytes: &mut u64| run(csv, 1, count, room, bytes)
        };
        let what = format!("{name}, all rows");
        print_whole((&what, RUNS, MOST_RATIO), count, ask(library), ask(plain));
    }
}

/// Opening where every offset points at the last rows, and where the rows take
/// more than half a megabyte.
fn print_hard_packs() {
    for (what, pack) in [
        (
            "16,000 points that all point at the last of 16,005 rows",
            far_pack(16_000),
        ),
        (
            "70,000 points over rows of more than half a megabyte",
            far_pack(70_000),
        ),
    ] {
        let mut library = || calls::pack(black_box(&pack));
        let mut plain = || plain::pack(black_box(&pack));
        assert_eq!(library(), plain(), "{what}");
        let [ours, theirs] = by_turns(RUNS, [&mut library, &mut plain]);
        let ratio = barred(ours / theirs, MOST_RATIO);
        println!("ttw_pack, {what}: {ours:.0} beside {theirs:.0}, ratio {ratio}");
    }
}

/// The codes where every view has another one.
fn print_many_codes() {
    let Pair { points, views, .. } = pair_of_codes(20_000);
    let mut room = vec![0; 8 * views.len()];
    same(
        "ttw_codes",
        room.len(),
        |room, _| calls::codes(&points, room),
        |room, _| plain::codes(&points, room),
    );
    let mut other = room.clone();
    let [ours, theirs, check] = by_turns(
        RUNS,
        [
            &mut || calls::codes(black_box(&points), &mut room),
            &mut || plain::codes(black_box(&points), &mut other),
            &mut || calls::points(black_box(&points)),
        ],
    );
    println!(
        "ttw_codes, every view another code: {ours:.0} beside {theirs:.0}, ratio {}; {} times the check, bar {MOST_CODES:.0}",
        barred(ours / theirs, MOST_RATIO),
        barred(ours / check, MOST_CODES)
    );
}

/// How often a file is rewritten in one run: header and trailer alone are read.
const REWRITINGS: u64 = 1_000;

/// A file rewritten again and again, spaces put back before each time.
fn print_rewriting(Input { pair, .. }: &Input) {
    type Rewriting = fn(&mut [u8]) -> u64;
    type Spacing = fn(&mut [u8], &[End]);
    let files: [(&str, &[u8], Spacing, [Rewriting; 2]); 2] = [
        (
            "ttw_unspace_table",
            &pair.table,
            space_table,
            [calls::unspace_table, plain::unspace_table],
        ),
        (
            "ttw_unspace_points",
            &pair.points,
            space_points,
            [calls::unspace_points, plain::unspace_points],
        ),
    ];
    for (name, proper, space, [library, plain]) in files {
        let (mut one, mut other) = (proper.to_vec(), proper.to_vec());
        let again = |file: &mut [u8], rewrite: Rewriting| {
            let rewritten = (0..REWRITINGS).map(|_| {
                space(file, &[End::Header, End::Trailer]);
                rewrite(black_box(file))
            });
            rewritten.sum::<u64>()
        };
        let [ours, theirs] = by_turns(
            RUNS,
            [&mut || again(&mut one, library), &mut || {
                again(&mut other, plain)
            }],
        );
        assert!(one == *proper && other == *proper, "{name}");
        let ratio = barred(ours / theirs, MOST_RATIO);
        println!("{name}, {REWRITINGS} times: {ours:.1} beside {theirs:.1}, ratio {ratio}");
    }
}

/// What `ttw pack --all` asks of the library: which codes are live, and the
/// pack of each.
fn print_every_code() {
    let pair = pair_of_codes(2_000);
    let (mut codes, mut bytes) = (0, 0);
    let seconds = timed(|| {
        let live = ttw::ask::codes(&pair.points).expect("codes");
        for (code, _) in &live {
            let pack = ttw::ask::build(&pair.table, &pair.points, code, 1 << 16);
            bytes += pack.expect("a pack").len();
        }
        codes = live.len();
        bytes as u64
    });
    println!(
        "\nevery code of 20,000 records of each file, on one core: {codes} codes, {bytes} bytes, {seconds:.1} s"
    );
}

fn print_sizes(inputs: &[Input]) {
    println!("\nbytes of the pack, and of the same rows in SQLite:");
    for (records, input) in SIZES.iter().zip(inputs) {
        let database = sqlite::size(&input.pair)
            .map_or("sqlite3 is not installed".to_string(), |size| {
                size.to_string()
            });
        let (points, pack) = (input.last_point, input.pack.len());
        println!("{records:>6} records, {points:>5} points {pack:>9} {database:>9}");
    }
}

fn main() {
    let inputs: Vec<Input> = SIZES.into_iter().map(Input::new).collect();
    println!("microseconds, library and plain version, at so many records of each file:\n");
    print!("{:<15}", "call");
    for records in SIZES {
        print!(" {records:>9} {:>9}", "plain");
    }
    println!(" {:>6} {:>6} {:>6}", "ratio", "growth", "passes");
    for call in asked::CALLS {
        print_call(&call, &inputs);
    }
    println!(
        "\nAt the largest size. ratio: library / plain, bar {MOST_RATIO:.1}, for rows {MOST_ROWS:.1}. growth: from 5,000 to 20,000 \
         records, bar {MOST_GROWTH:.1}.\npasses: library / one sum of the file's bytes, bar 3.0 for a table file \
         and 4.0 for a point file; of a CSV file one walk that finds its fields, bar 4.0. A figure over its bar is marked !.\n\nmicroseconds, at 20,000 records of each file:"
    );
    let largest = &inputs[inputs.len() - 1];
    print_whole_pair("all views", &largest.pair);
    print_whole_pair("one key that comes 19,997 times", &pair_of_one_key());
    print_whole_pack(largest);
    print_whole_csv(largest);
    print_hard_packs();
    print_many_codes();
    print_rewriting(largest);
    books::print_all();
    command::print_labels(&largest.pair);
    print_every_code();
    print_sizes(&inputs);
    sets::print_all();
}
