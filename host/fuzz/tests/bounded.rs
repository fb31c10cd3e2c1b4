//! A short run that ends, is repeatable and reaches every kind of answer; and
//! that the edges and the trap would tell.

use fuzz::edge::{Edge, Flush};
use fuzz::trap;
use std::hint::black_box;
use std::process::{Command, Output};

fn fuzz(arguments: &[&str]) -> Output {
    let mut fuzz = Command::new(env!("CARGO_BIN_EXE_fuzz"));
    fuzz.args(arguments).output().expect("the command starts")
}

/// How often a call was asked.
fn asked(out: &str, call: &str) -> u64 {
    let start = format!("{call}: ");
    let lines = out.lines().filter(|line| line.starts_with(&start));
    let times = lines.filter_map(|line| line.rsplit(": ").next());
    times
        .map(|times| times.parse::<u64>().expect("a number"))
        .sum()
}

/// Some of the lines that enough cases print.
const REACHED: [&str; 30] = [
    "\nbook build: refusal 9, field 7: ",
    "\nbook code labels: refusal 8, rule 3: ",
    "\nbook event: refusal 3 of the points: ",
    "\nbook event: refusal 17: ",
    "\nbook event: refusal 20: ",
    "\nbook event: value: ",
    "\nbook list: refusal 28: ",
    "\nbuild: refusal 9, field 5: ",
    "\ncode label: refusal 8, rule 2: ",
    "\ncsv label: refusal 8, rule 2: ",
    "\ncsv rows: refusal 15: ",
    "\ncsv: refusal 14, at 17 fields: ",
    "\ncsv: refusal 15: ",
    "\nlabels: refusal 3 of the table: ",
    "\nlabels: refusal 6 of the points: ",
    "\nmain build: refusal 9, field 8: ",
    "\nmain csv rows: refusal 15: ",
    "\nmain list: refusal 5 of the sub building: ",
    "\nmain: refusal 4 of the organisation, at ",
    "\npack: refusal 11, step 3: ",
    "\npack: refusal 11, step 4: ",
    "\npack labels: value: ",
    "\npack suffix: refusal 13: ",
    "\npack suffix: value: ",
    "\nsector: refusal 27: ",
    "\nsector: value: ",
    "\npoints: refusal 2 of the points: ",
    "\ntable: refusal 4 of the table, at ",
    "\nunspace points: value 1: ",
    "\nunspace table: value 2: ",
];

#[test]
fn two_thousand_cases_reach_every_kind_of_answer_and_repeat() {
    let run = fuzz(&["--cases", "2000", "--seed", "7"]);
    let out = String::from_utf8_lossy(&run.stdout).into_owned();
    let told = String::from_utf8_lossy(&run.stderr).into_owned();
    assert!(run.status.success() && told.is_empty(), "{told}");
    assert!(out.starts_with("cases: 2000, seed 7, all answered alike\n"));
    for line in REACHED {
        assert!(out.contains(line), "{line}");
    }
    // At both edges, the two packs of a case each.
    assert_eq!(asked(&out, "table"), 2 * 2_000);
    assert_eq!(asked(&out, "unspace points"), 2 * 2_000);
    assert_eq!(asked(&out, "pack"), 2 * 2 * 2_000);
    assert_eq!(asked(&out, "csv"), 2 * 2_000);
    assert_eq!(asked(&out, "book event"), 2 * 2_000);
    let again = fuzz(&["--cases", "2000", "--seed", "7"]);
    assert_eq!(again.stdout, run.stdout);
    let other = fuzz(&["--cases", "2000", "--seed", "8"]);
    assert_ne!(other.stdout, run.stdout);
    assert!(other.status.success());
}

#[test]
fn cases_that_reach_too_little_are_a_failure() {
    let few = fuzz(&["--cases", "40", "--seed", "7", "--enough", "40"]);
    assert_eq!(few.status.code(), Some(1));
    assert!(few.stdout.starts_with(b"cases: 40, seed 7, "));
    let told = String::from_utf8_lossy(&few.stderr).into_owned();
    assert!(told.starts_with("not reached in 40 cases:\n"), "{told}");
    assert!(
        told.contains("\ntable: refusal 4 of the table, byte "),
        "{told}"
    );
    let unjudged = fuzz(&["--cases", "40", "--seed", "7"]);
    assert!(unjudged.status.success());
}

#[test]
fn a_run_keeps_to_its_time() {
    let run = fuzz(&["--seconds", "1"]);
    assert!(run.status.success());
    assert!(!run.stdout.starts_with(b"cases: 0,"));
}

/// The name under which this program runs itself to touch what it may not.
const TOUCH: &str = "TTW_FUZZ_TOUCH";

/// Touches a byte beside or inside a slice, as the name says.
fn touch(what: &str) {
    trap::watch();
    trap::at_case(4711);
    let bytes = vec![7; 5000];
    match what {
        "behind" => {
            let edge = Edge::readable(&bytes, Flush::AtEnd);
            let end = edge.bytes().as_ptr_range().end;
            // SAFETY: none; the process has to die of it.
            black_box(unsafe { end.read_volatile() });
        }
        "before" => {
            let edge = Edge::readable(&bytes, Flush::AtStart);
            let before = edge.bytes().as_ptr().wrapping_sub(1);
            // SAFETY: none; the process has to die of it.
            black_box(unsafe { before.read_volatile() });
        }
        _ => {
            let edge = Edge::readable(&bytes, Flush::AtEnd);
            let inside = edge.bytes().as_ptr().cast_mut();
            // SAFETY: none; the process has to die of it.
            unsafe { inside.write_volatile(8) };
        }
    }
}

#[test]
fn one_byte_outside_traps_and_so_does_a_write_into_what_is_read() {
    if let Ok(what) = std::env::var(TOUCH) {
        touch(&what);
        return;
    }
    let this = std::env::current_exe().expect("this program");
    for what in ["behind", "before", "inside"] {
        let test = "one_byte_outside_traps_and_so_does_a_write_into_what_is_read";
        let mut command = Command::new(&this);
        let run = command
            .args([test, "--exact", "--nocapture"])
            .env(TOUCH, what);
        let Output { status, stderr, .. } = run.output().expect("it starts");
        assert_eq!(status.code(), Some(trap::TRAPPED), "{what}");
        let told = "touched forbidden memory in case 00000000000000004711\n";
        assert!(String::from_utf8_lossy(&stderr).contains(told), "{what}");
    }
}

#[test]
fn a_write_beside_a_buffer_is_seen() {
    for flush in Flush::BOTH {
        let mut edge = Edge::writable(&[1; 100], flush);
        assert!(edge.is_clean_around());
        let open_side = match flush {
            Flush::AtEnd => edge.bytes_mut().as_mut_ptr().wrapping_sub(1),
            Flush::AtStart => edge.bytes_mut().as_mut_ptr().wrapping_add(100),
        };
        // SAFETY: the byte is in the same page as the lent ones.
        unsafe { open_side.write_volatile(0) };
        assert!(!edge.is_clean_around());
    }
}
