//! One case: inputs from a seed and a number, and every call on them.

use crate::book::{self, BookCase, LentBook};
use crate::csv::{self, CsvFile};
use crate::edge::{Edge, Flush};
use crate::files::{number_of, Files};
use crate::reached::Reached;
use crate::sets::SetFiles;
use crate::{files, limits, mutate, sets};
use paper::make::{self, Rng};
use paper::{mainfile, packed, packed_run, Refusal, Run};
use ttw::{calls, main_calls};

/// The inputs of a case.
pub struct Case {
    pub files: Files,
    pub set: SetFiles,
    pub csv: CsvFile,
    /// A pack that may be mutated, and one at a limit.
    pub packs: [Vec<u8>; 2],
    /// The number of a point.
    pub point: u64,
    /// An inward digit, or a number that is none.
    pub digit: u64,
    pub room: usize,
    /// How many labels a run asks for, and the room for them.
    pub count: u64,
    pub run_room: usize,
    pub book: BookCase,
}

/// The case of that number.
pub fn make(seed: u64, number: u64) -> Case {
    let mut rng = Rng::new(seed.wrapping_mul(0x9E37_79B9) ^ number.wrapping_mul(0xD129_0B26_11D3));
    let files = files::of_case(&mut rng, number);
    let mut pack = pack_of(&mut rng, &files.pair, &files.code);
    mutate::pack(&mut rng, &mut pack);
    let limit = &limits::ALL[number as usize % limits::ALL.len()];
    let packs = [pack, limits::pack(&mut rng, limit)];
    let (point, room) = (number_of(&mut rng, 8), rng.below(600));
    let (count, run_room) = (number_of(&mut rng, 8), rng.below(2_000));
    Case {
        set: sets::of_case(&mut rng, number),
        csv: csv::of_case(&mut rng, number),
        packs,
        point,
        digit: number_of(&mut rng, 9),
        room,
        count,
        run_room,
        book: book::of_case(&mut rng, &files),
        files,
    }
}

/// A pack that opens: built from the pair, or drafted by hand.
fn pack_of(rng: &mut Rng, pair: &make::Pair, code: &[u8]) -> Vec<u8> {
    let mut built = vec![0; pair.table.len() + pair.points.len()];
    match paper::build(&pair.table, &pair.points, code, &mut built) {
        Ok(length) if rng.one_in(2) => {
            built.truncate(length);
            built
        }
        _ => make::pack_draft(rng, 30).bytes(),
    }
}

/// Asks every call about the case, its slices flush at either end.
pub fn run(case: &Case, reached: &mut Reached) {
    for flush in Flush::BOTH {
        let lent = Lent::new(case, flush);
        lent.ask_reading_calls(case, reached);
        lent.ask_rewriting(case, reached);
        lent.ask_labels(case, reached);
        lent.ask_runs(case, reached);
        lent.ask_lists(case, reached);
        lent.ask_rows(case, reached);
        lent.ask_build(case, reached);
        LentSet::new(case, flush).ask(case, reached);
        for pack in &case.packs {
            ask_pack(case, pack, flush, reached);
        }
        ask_csv(case, flush, reached);
        LentBook::new(&case.book, flush).ask(case, reached);
    }
}

/// A case's slices, lent at an edge.
struct Lent {
    flush: Flush,
    table: Edge,
    points: Edge,
    code: Edge,
}

impl Lent {
    fn new(case: &Case, flush: Flush) -> Lent {
        Lent {
            flush,
            table: Edge::readable(&case.files.table, flush),
            points: Edge::readable(&case.files.points, flush),
            code: Edge::readable(&case.files.code, flush),
        }
    }

    /// The calls that only read.
    fn ask_reading_calls(&self, case: &Case, reached: &mut Reached) {
        let (table, points) = (self.table.bytes(), self.points.bytes());
        let code = self.code.bytes();
        let count = |plain: Result<usize, Refusal>| plain.map(|value| value as u64);
        let view = case.files.view;
        let mut same = |call, ours, plain| same(call, ours, plain, reached);
        same(
            "table",
            calls::table(table),
            count(paper::check_table(&case.files.table)),
        );
        same(
            "points",
            calls::points(points),
            count(paper::check_points(&case.files.points)),
        );
        same(
            "views",
            calls::views(points),
            count(paper::views(&case.files.points)),
        );
        let letter = paper::letter(&case.files.points, view).map(u64::from);
        same("letter", calls::letter(points, view), letter);
        let live = count(paper::live(&case.files.points, &case.files.code));
        same("live", calls::live(points, code), live);
    }

    /// The calls that rewrite a file.
    fn ask_rewriting(&self, case: &Case, reached: &mut Reached) {
        let mut rewritten = |call, file: &[u8], ours: Rewriting, plain: Rewriting| {
            rewritten(call, self.flush, file, ours, plain, reached);
        };
        rewritten(
            "unspace table",
            &case.files.table,
            calls::unspace_table,
            paper::unspace_table,
        );
        rewritten(
            "unspace points",
            &case.files.points,
            calls::unspace_points,
            paper::unspace_points,
        );
    }

    /// The calls that write codes or a label.
    fn ask_labels(&self, case: &Case, reached: &mut Reached) {
        let (table, points) = (self.table.bytes(), self.points.bytes());
        let code = self.code.bytes();
        let (view, k, room) = (case.files.view, case.files.nth, case.room);
        let mut written = |call, room, ours: &dyn Fn(&mut [u8]) -> u64, plain: &Plain| {
            written(call, self.flush, room, ours, plain, reached)
        };
        written("codes", room, &|out| calls::codes(points, out), &|out| {
            paper::codes(&case.files.points, out)
        });
        written(
            "label",
            room,
            &|out| calls::label(table, points, view, out),
            &|out| paper::label(&case.files.table, &case.files.points, view, out),
        );
        written(
            "code label",
            room,
            &|out| calls::code_label(table, points, code, k, out),
            &|out| {
                paper::code_label(
                    &case.files.table,
                    &case.files.points,
                    &case.files.code,
                    k,
                    out,
                )
            },
        );
    }

    /// The calls that print a run of labels.
    fn ask_runs(&self, case: &Case, reached: &mut Reached) {
        let (table, points) = (self.table.bytes(), self.points.bytes());
        let code = self.code.bytes();
        let (view, k, count) = (case.files.view, case.files.nth, case.count);
        let mut run = |call, ours: &Ours, plain: &PlainRun| {
            run_written(call, self.flush, case.run_room, ours, plain, reached)
        };
        run(
            "labels",
            &|out, bytes| calls::labels(table, points, view, count, out, bytes),
            &|out| paper::labels(&case.files.table, &case.files.points, view, count, out),
        );
        run(
            "code labels",
            &|out, bytes| calls::code_labels(table, points, code, k, count, out, bytes),
            &|out| {
                paper::code_labels(
                    &case.files.table,
                    &case.files.points,
                    &case.files.code,
                    k,
                    count,
                    out,
                )
            },
        );
    }

    /// The calls that list views.
    fn ask_lists(&self, case: &Case, reached: &mut Reached) {
        let (table, points) = (self.table.bytes(), self.points.bytes());
        let code = self.code.bytes();
        let (view, k, count) = (case.files.view, case.files.nth, case.count);
        let mut list = |call, ours: &Ours, plain: &PlainRun| {
            run_written(call, self.flush, case.run_room, ours, plain, reached)
        };
        list(
            "list",
            &|out, bytes| calls::list(table, points, view, count, out, bytes),
            &|out| paper::list(&case.files.table, &case.files.points, view, count, out),
        );
        list(
            "code list",
            &|out, bytes| calls::code_list(table, points, code, k, count, out, bytes),
            &|out| {
                paper::code_list(
                    &case.files.table,
                    &case.files.points,
                    &case.files.code,
                    k,
                    count,
                    out,
                )
            },
        );
    }

    /// The calls that write rows.
    fn ask_rows(&self, case: &Case, reached: &mut Reached) {
        let (table, points) = (self.table.bytes(), self.points.bytes());
        let (view, count) = (case.files.view, case.count);
        written(
            "csv row",
            self.flush,
            case.room,
            &|out| calls::csv_row(table, points, view, out),
            &|out| paper::csv::row(&case.files.table, &case.files.points, view, out),
            reached,
        );
        run_written(
            "csv rows",
            self.flush,
            case.run_room,
            &|out, bytes| calls::csv_rows(table, points, view, count, out, bytes),
            &|out| paper::csv::rows(&case.files.table, &case.files.points, view, count, out),
            reached,
        );
    }

    /// Building, with some room, with just enough, and with a byte less.
    fn ask_build(&self, case: &Case, reached: &mut Reached) {
        let (table, points) = (self.table.bytes(), self.points.bytes());
        let code = self.code.bytes();
        let ours = |out: &mut [u8]| calls::build(table, points, code, out);
        let plain = |out: &mut [u8]| {
            paper::build(&case.files.table, &case.files.points, &case.files.code, out)
        };
        let mut build = |room| written("build", self.flush, room, &ours, &plain, reached);
        let answer = build(case.room);
        if answer >> 56 == 10 {
            let needed = answer as u32 as usize;
            build(needed);
            build(needed - 1);
        }
    }
}

/// A case's Mainfile set, lent at an edge.
struct LentSet {
    flush: Flush,
    files: [Edge; 7],
    code: Edge,
}

impl LentSet {
    fn new(case: &Case, flush: Flush) -> LentSet {
        let files = case.set.files.each_ref();
        LentSet {
            flush,
            files: files.map(|file| Edge::readable(file, flush)),
            code: Edge::readable(&case.set.code, flush),
        }
    }

    /// Every call on the set.
    fn ask(&self, case: &Case, reached: &mut Reached) {
        self.ask_counts(case, reached);
        self.ask_written(case, reached);
        self.ask_runs(case, reached);
        self.ask_build(case, reached);
    }

    /// The files as they are lent.
    fn set(&self) -> mainfile::Set<'_> {
        self.files.each_ref().map(Edge::bytes)
    }

    /// The calls that only read.
    fn ask_counts(&self, case: &Case, reached: &mut Reached) {
        let (set, code) = (self.set(), self.code.bytes());
        let plain = mainfile::views(case.set.set()).map(|views| views as u64);
        same("main", main_calls::views(set), plain, reached);
        let plain = mainfile::live(&case.set.files[6], &case.set.code);
        let plain = plain.map(|count| count as u64);
        same("main live", main_calls::live(set[6], code), plain, reached);
    }

    /// The calls that write codes, a label or a row.
    fn ask_written(&self, case: &Case, reached: &mut Reached) {
        let (set, code) = (self.set(), self.code.bytes());
        let (plain_set, plain_code) = (case.set.set(), case.set.code.as_slice());
        let (view, k) = (case.set.view, case.set.nth);
        let mut written = |call, ours: &dyn Fn(&mut [u8]) -> u64, plain: &Plain| {
            written(call, self.flush, case.room, ours, plain, reached)
        };
        written(
            "main codes",
            &|out| main_calls::codes(set[6], out),
            &|out| mainfile::codes(plain_set[6], out),
        );
        written(
            "main label",
            &|out| main_calls::label(set, view, out),
            &|out| mainfile::label(plain_set, view, out),
        );
        written(
            "main code label",
            &|out| main_calls::code_label(set, code, k, out),
            &|out| mainfile::code_label(plain_set, plain_code, k, out),
        );
        written(
            "main csv row",
            &|out| main_calls::csv_row(set, view, out),
            &|out| paper::csv::main_row(plain_set, view, out),
        );
    }

    /// The calls that print a run of labels or rows, or list views.
    fn ask_runs(&self, case: &Case, reached: &mut Reached) {
        let (set, code) = (self.set(), self.code.bytes());
        let (plain_set, plain_code) = (case.set.set(), case.set.code.as_slice());
        let (view, k, count) = (case.set.view, case.set.nth, case.count);
        let mut run = |call, ours: &Ours, plain: &PlainRun| {
            run_written(call, self.flush, case.run_room, ours, plain, reached)
        };
        run(
            "main labels",
            &|out, bytes| main_calls::labels(set, view, count, out, bytes),
            &|out| mainfile::labels(plain_set, view, count, out),
        );
        run(
            "main code labels",
            &|out, bytes| main_calls::code_labels(set, code, k, count, out, bytes),
            &|out| mainfile::code_labels(plain_set, plain_code, k, count, out),
        );
        run(
            "main list",
            &|out, bytes| main_calls::list(set, view, count, out, bytes),
            &|out| mainfile::list(plain_set, view, count, out),
        );
        run(
            "main code list",
            &|out, bytes| main_calls::code_list(set, code, k, count, out, bytes),
            &|out| mainfile::code_list(plain_set, plain_code, k, count, out),
        );
        run(
            "main csv rows",
            &|out, bytes| main_calls::csv_rows(set, view, count, out, bytes),
            &|out| paper::csv::main_rows(plain_set, view, count, out),
        );
    }

    /// Building, with some room, with just enough, and with a byte less.
    fn ask_build(&self, case: &Case, reached: &mut Reached) {
        let (set, code) = (self.set(), self.code.bytes());
        let ours = |out: &mut [u8]| main_calls::build(set, code, out);
        let plain = |out: &mut [u8]| mainfile::build(case.set.set(), &case.set.code, out);
        let mut build = |room| written("main build", self.flush, room, &ours, &plain, reached);
        let answer = build(case.room);
        if answer >> 56 == 10 {
            let needed = answer as u32 as usize;
            build(needed);
            build(needed - 1);
        }
    }
}

/// The calls on a pack.
fn ask_pack(case: &Case, pack: &[u8], flush: Flush, reached: &mut Reached) {
    let lent = Edge::readable(pack, flush);
    let (ours, k, count) = (lent.bytes(), case.point, case.count);
    let points = paper::open(pack).map(|points| points as u64);
    same("pack", calls::pack(ours), points, reached);
    written(
        "pack label",
        flush,
        case.room,
        &|out| calls::pack_label(ours, k, out),
        &|out| paper::pack_label(pack, k, out),
        reached,
    );
    let suffix = paper::pack_suffix(pack, k);
    same("pack suffix", calls::pack_suffix(ours, k), suffix, reached);
    let points = paper::sector(pack, case.digit);
    same("sector", calls::sector(ours, case.digit), points, reached);
    run_written(
        "pack labels",
        flush,
        case.run_room,
        &|out, bytes| calls::pack_labels(ours, k, count, out, bytes),
        &|out| paper::pack_labels(pack, k, count, out),
        reached,
    );
    run_written(
        "pack list",
        flush,
        case.run_room,
        &|out, bytes| calls::pack_list(ours, k, count, out, bytes),
        &|out| paper::pack_list(pack, k, count, out),
        reached,
    );
}

/// The calls on a CSV file.
fn ask_csv(case: &Case, flush: Flush, reached: &mut Reached) {
    let csv = case.csv.bytes.as_slice();
    let lent = Edge::readable(csv, flush);
    let (ours, row, count) = (lent.bytes(), case.csv.row, case.count);
    let rows = paper::csv::check(csv).map(|rows| rows as u64);
    same("csv", calls::csv(ours), rows, reached);
    written(
        "csv label",
        flush,
        case.room,
        &|out| calls::csv_label(ours, row, out),
        &|out| paper::csv::label(csv, row, out),
        reached,
    );
    run_written(
        "csv labels",
        flush,
        case.run_room,
        &|out, bytes| calls::csv_labels(ours, row, count, out, bytes),
        &|out| paper::csv::labels(csv, row, count, out),
        reached,
    );
    run_written(
        "csv list",
        flush,
        case.run_room,
        &|out, bytes| calls::csv_list(ours, row, count, out, bytes),
        &|out| paper::csv::list(csv, row, count, out),
        reached,
    );
}

/// A call of the second program that writes.
pub(crate) type Plain<'a> = dyn Fn(&mut [u8]) -> Result<usize, Refusal> + 'a;

/// Asks both programs to write into a buffer of telling bytes at an edge, and
/// compares answer and buffer.
pub(crate) fn written(
    call: &'static str,
    flush: Flush,
    room: usize,
    ours: &dyn Fn(&mut [u8]) -> u64,
    plain: &Plain,
    reached: &mut Reached,
) -> u64 {
    let mut expected = telling(room);
    let mut lent = Edge::writable(&expected, flush);
    let answer = ours(lent.bytes_mut());
    let plain = plain(&mut expected).map(|value| value as u64);
    same(call, answer, plain, reached);
    assert!(lent.bytes() == expected, "{call}: the buffers differ");
    assert!(lent.is_clean_around(), "{call}: bytes beside the buffer");
    answer
}

/// A call that rewrites a file.
type Rewriting = fn(&mut [u8]) -> u64;

/// Asks both programs to rewrite a file at an edge, and compares answer and file.
fn rewritten(
    call: &'static str,
    flush: Flush,
    file: &[u8],
    ours: Rewriting,
    plain: Rewriting,
    reached: &mut Reached,
) {
    let mut expected = file.to_vec();
    let mut lent = Edge::writable(file, flush);
    let answer = ours(lent.bytes_mut());
    same(call, answer, Ok(plain(&mut expected)), reached);
    assert!(lent.bytes() == expected, "{call}: the files differ");
    assert!(lent.is_clean_around(), "{call}: bytes beside the file");
}

/// A run or a listing, by the library and by the second program.
pub(crate) type Ours<'a> = dyn Fn(&mut [u8], &mut u64) -> u64 + 'a;
pub(crate) type PlainRun<'a> = dyn Fn(&mut [u8]) -> Result<Run, Refusal> + 'a;

/// The same for a run, which also tells how many bytes it wrote: that number
/// lies at an edge too.
pub(crate) fn run_written(
    call: &'static str,
    flush: Flush,
    room: usize,
    ours: &Ours,
    plain: &PlainRun,
    reached: &mut Reached,
) {
    let (mut expected, mut expected_bytes) = (telling(room), u64::MAX);
    let mut lent = Edge::writable(&expected, flush);
    let mut bytes = Edge::writable(&expected_bytes.to_ne_bytes(), flush);
    let answer = ours(lent.bytes_mut(), bytes.number_mut());
    let plain = packed_run(plain(&mut expected), &mut expected_bytes);
    assert!(
        answer == plain,
        "{call}: the library answers {answer:#x}, the second program {plain:#x}"
    );
    reached.count(call, answer);
    assert_eq!(*bytes.number_mut(), expected_bytes, "{call}: bytes told");
    assert!(lent.bytes() == expected, "{call}: the buffers differ");
    assert!(
        lent.is_clean_around() && bytes.is_clean_around(),
        "{call}: bytes beside what was lent"
    );
}

/// So many bytes that tell where they stand.
fn telling(room: usize) -> Vec<u8> {
    (0..room).map(|i| (i * 7 + 1) as u8).collect()
}

pub(crate) fn same(
    call: &'static str,
    answer: u64,
    plain: Result<u64, Refusal>,
    reached: &mut Reached,
) {
    assert!(
        answer == packed(plain),
        "{call}: the library answers {answer:#x}, the second program {plain:?}"
    );
    reached.count(call, answer);
}
