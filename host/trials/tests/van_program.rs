//! `examples/van.c`: compiled from the headers alone without a warning, linked with both libraries, and run on the packs of
//! the samples beside the second program.

use paper::van::fold_label;
use std::fs;
use std::path::{Path, PathBuf};
use std::process::Command;
use trials::c::{printed, Folder};

fn root() -> PathBuf {
    Path::new(env!("CARGO_MANIFEST_DIR")).join("../..")
}

/// The options under which both compilers have to be silent.
fn strict(compiler: &str) -> Command {
    let mut command = Command::new(compiler);
    command.args(["-Wall", "-Wextra", "-Werror", "-pedantic", "-I"]);
    command.arg(root().join("include"));
    command
}

/// The program, compiled into a folder.
fn program(folder: &Folder) -> PathBuf {
    let program = folder.0.join("van");
    let mut cc = strict("cc");
    cc.arg("-std=c11").arg(root().join("examples/van.c"));
    for library in ["libttwvan.a", "libttwibonal.a"] {
        cc.arg(root().join("target/staticlib").join(library));
    }
    assert_eq!(printed(cc.arg("-o").arg(&program)), "");
    program
}

/// What is printed of one point, and whether it is a label.
fn expected(pack: &[u8], k: u64) -> (String, bool) {
    let mut out = [0; 194];
    match fold_label(|label| paper::pack_label(pack, k, label), &mut out) {
        Ok(size) => (String::from_utf8_lossy(&out[..size]).into_owned(), true),
        Err(refusal) => {
            assert_eq!(refusal.number, 21, "a point of a good pack");
            ("This label has more than 6 lines.\n".to_string(), false)
        }
    }
}

#[test]
fn the_labels_of_every_pack_of_the_samples_are_folded() {
    let folder = Folder::new("van");
    let van = program(&folder);
    let packs = root().join("samples/packs/edition3");
    for pack in fs::read_dir(packs).expect("the packs of the samples") {
        let path = pack.expect("a pack").path();
        let bytes = fs::read(&path).expect("a pack");
        let points = paper::open(&bytes).expect("a pack that opens") as u64;
        let each: Vec<(String, bool)> = (1..=points).map(|k| expected(&bytes, k)).collect();
        let texts: Vec<&str> = each.iter().map(|(text, _)| text.as_str()).collect();
        let wanted = texts.join(&format!("{}\n", "-".repeat(36)));
        let run = Command::new(&van).arg(&path).output().expect("it starts");
        assert_eq!(String::from_utf8_lossy(&run.stdout), wanted);
        let all_fit = each.iter().all(|(_, fits)| *fits);
        assert_eq!(run.status.code(), Some(i32::from(!all_fit)));
    }
}

#[test]
fn what_is_refused_is_told() {
    let folder = Folder::new("van-refused");
    let van = program(&folder);
    let good = root().join("samples/packs/edition3/worked.pack");
    let bad = folder.file("bad.pack", b"no pack");
    for (pack, number, told) in [
        (&good, "2", "This pack has no point of that number.\n"),
        (&bad, "1", "This pack is damaged. Load it again.\n"),
    ] {
        let run = Command::new(&van).arg(pack).arg(number).output();
        let run = run.expect("it starts");
        assert_eq!(String::from_utf8_lossy(&run.stdout), told);
        assert_eq!(run.status.code(), Some(1));
    }
}

#[test]
fn the_header_is_taken_as_c_and_as_cpp() {
    let header = root().join("include/ttwvan.h");
    for (compiler, language) in [("cc", "c"), ("c++", "c++")] {
        if Command::new(compiler).arg("--version").output().is_err() {
            continue;
        }
        let mut command = strict(compiler);
        command.args(["-fsyntax-only", "-x", language]).arg(&header);
        assert_eq!(printed(&mut command), "", "{compiler}");
    }
}
