//! Labels folded for the van printer: document 02's examples, and laws that hold
//! for any bytes.

use paper::make::Rng;
use paper::van::fold;
use paper::Refusal;

/// What is printed of some bytes where there is room for all that may be.
fn folded(label: &[u8]) -> Result<Vec<u8>, Refusal> {
    let mut out = [0; 222];
    let size = fold(label, &mut out)?;
    Ok(out[..size].to_vec())
}

/// So many of a letter.
fn run(letter: char, count: usize) -> String {
    letter.to_string().repeat(count)
}

#[track_caller]
fn prints(label: &str, lines: &[&str]) {
    let ended: String = lines.iter().map(|line| format!("{line}\n")).collect();
    assert_eq!(folded(label.as_bytes()), Ok(ended.into_bytes()), "{label}");
}

#[test]
fn the_examples_fold_as_they_are_told() {
    let (a, x) = (run('A', 36), run('X', 36));
    prints(&a, &[&a]);
    prints(&format!("{a}A"), &[&a, "A"]);
    prints(&format!("{a} B"), &[&a, "B"]);
    prints(&format!("{a}A B"), &[&a, "A B"]);
    prints(&format!("UNIT 7 {x}XXXX"), &["UNIT 7", &x, "XXXX"]);
    prints(&format!("{a}  B"), &[&a, " B"]);
    prints("", &[]);
    prints("\n", &[""]);
    prints(&format!("{a} "), &[&a, ""]);
    prints(&format!(" {a}"), &[&format!(" {}", &a[1..]), "A"]);
    prints("A\nB", &["A", "B"]);
}

#[test]
fn more_than_six_lines_are_refused_before_room_is_asked_for() {
    let six = "A\n".repeat(6);
    assert_eq!(
        fold(six.as_bytes(), &mut [0; 11]),
        Err(Refusal::new(10, 12))
    );
    let seven = format!("{six}A");
    for room in [0, 222] {
        let refused = fold(seven.as_bytes(), &mut vec![0; room]);
        assert_eq!(refused, Err(Refusal::new(21, 0)));
    }
    let widest = run('A', 36 * 6);
    assert_eq!(
        fold(widest.as_bytes(), &mut [0; 221]),
        Err(Refusal::new(10, 222))
    );
    assert_eq!(fold(widest.as_bytes(), &mut [0; 222]), Ok(222));
}

#[test]
fn no_line_is_wide_and_nothing_but_spaces_at_breaks_is_lost() {
    let mut rng = Rng::new(11);
    for _ in 0..20_000 {
        let length = rng.below(180);
        let label: Vec<u8> = (0..length)
            .map(|_| *rng.pick(b"AB  C\nDEFGHIJKLM"))
            .collect();
        let Ok(printed) = folded(&label) else {
            continue;
        };
        let lines: Vec<&[u8]> = printed.split_inclusive(|&byte| byte == 10).collect();
        assert!(lines.len() <= 6 && lines.iter().all(|line| line.len() <= 37));
        let mut left = &label[..];
        for line in lines {
            let line = &line[..line.len() - 1];
            left = left.strip_prefix(line).expect("the bytes in order");
            left = left
                .strip_prefix(b"\n")
                .or(left.strip_prefix(b" "))
                .unwrap_or(left);
        }
        assert!(left.is_empty(), "{label:?}");
    }
}
