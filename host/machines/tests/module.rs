//! `scripts/module-arm`: a module is refused that says anything else than what
//! docs/ARM.md knows to mean the same on AArch64.

use machines::driver::root;
use machines::kit::clang;
use std::fs;
use std::path::Path;
use std::process::Command;

/// The module of the library, without most of the functions that are its own.
fn module() -> String {
    let module = root().join("target/aarch64/ttwibonal/module.ll");
    let text = fs::read_to_string(module).expect("scripts/library-arm left it");
    let (first, rest) = text.split_once("\n}\n").expect("a function");
    let exported = rest.find("\ndefine noundef").expect("an exported function");
    format!("{first}\n}}\n{}", &rest[exported..])
}

fn page() -> String {
    fs::read_to_string(root().join("docs/ARM.md")).expect("the page")
}

/// What is told of a module by the script that stands beside that page; nothing
/// where it is accepted.
fn told(name: &str, module: &str, page: &str) -> String {
    let folder = Path::new(env!("CARGO_TARGET_TMPDIR")).join(format!("module {name}"));
    let (script, text) = ("scripts/module-arm", folder.join("module.ll"));
    for part in ["docs", "scripts"] {
        fs::create_dir_all(folder.join(part)).expect("a folder");
    }
    fs::copy(root().join(script), folder.join(script)).expect("the script");
    fs::write(folder.join("docs/ARM.md"), page).expect("the page");
    fs::write(&text, module).expect("the module");
    let run = Command::new(folder.join(script))
        .arg(clang())
        .arg(text)
        .output();
    let run = run.expect("the script starts");
    assert_eq!(run.status.success(), run.stderr.is_empty());
    String::from_utf8(run.stderr).expect("text")
}

/// The text with its first such part replaced.
fn changed(text: &str, from: &str, to: &str) -> String {
    assert!(text.contains(from), "{from}");
    text.replacen(from, to, 1)
}

#[test]
fn the_library_is_accepted() {
    assert_eq!(told("as it is", &module(), &page()), "");
}

/// What is put into the module in place of something, and what is told of it.
const CHANGES: [(&str, &str, &str); 15] = [
    (
        "-S128\"",
        "-S64\"",
        "the module's data layout is not e-m:e-",
    ),
    (
        "x86_64-unknown-linux-gnu",
        "x86_64-unknown-linux-gnux32",
        "the module is not for x86_64-unknown-linux-gnu",
    ),
    ("alloca [16 x i8]", "alloca i128", "the module says i128"),
    (
        "alloca [16 x i8]",
        "alloca double",
        "the module says double",
    ),
    (
        "alloca [16 x i8]",
        "alloca <2 x i64>",
        "the module says <, >, x",
    ),
    (
        "alloca [16 x i8]",
        "alloca { i64, i8 }",
        "the module says {, }",
    ),
    (
        "alloca [16 x i8]",
        "alloca { ptr, i32 }",
        "the module says {, }",
    ),
    (
        "alloca [16 x i8]",
        "alloca [2 x i64]",
        "the module says [N x i64]",
    ),
    (
        "target triple",
        "@static.99 = private unnamed_addr constant [1 x i16] [i16 7]\ntarget triple",
        "the module says [N x i16]",
    ),
    (
        "target triple",
        "@static.99 = private unnamed_addr global [1 x i8] c\"a\"\ntarget triple",
        "the module says global",
    ),
    (
        "getelementptr i8,",
        "getelementptr i64,",
        "the module says getelementptr i64",
    ),
    (
        "\"target-cpu\"=\"x86-64\"",
        "\"target-cpu\"=\"x86-64\" \"target-features\"=\"+avx\"",
        "the module says \"target-features\"=\"+avx\"",
    ),
    (
        "\ndeclare ",
        "\ndeclare i64 @strlen(ptr)\ndeclare ",
        "the module calls declare i64 @strlen(ptr)",
    ),
    (
        "@ttw_pack(ptr noundef %a0, i64",
        "@ttw_pack(ptr noundef %a0, i32",
        "an exported function takes or gives more than numbers of 64 bits and pointers",
    ),
    (
        "define noundef i64 @ttw_pack(",
        "define noundef zeroext i8 @ttw_pack(",
        "an exported function takes or gives more than numbers of 64 bits and pointers",
    ),
];

#[test]
fn a_module_that_says_anything_else_is_refused() {
    for (from, to, refusal) in CHANGES {
        let told = told("changed", &changed(&module(), from, to), &page());
        let expected = format!("not made for AArch64: {refusal}");
        assert!(told.starts_with(&expected), "{to}: {told}");
    }
}

/// The layout of an Arm machine of 32 bits.
const NARROW: &str =
    "| narrow | `armv7-linux-gnueabi` | `e-m:e-p:32:32-Fi8-i64:64-v128:64:128-a:0:32-n32-S64` |";

#[test]
fn a_compiler_that_is_not_as_the_page_says_is_refused() {
    let page = page();
    for (name, from, to, refusal) in [
        (
            "other layout",
            "n32:64-S128-Fn32`",
            "n32:64-S64-Fn32`",
            "the data layout of aarch64-linux-gnu is not e-m:e-",
        ),
        (
            "narrow machine",
            "| Android on AArch64 |",
            &format!("{NARROW}\n| Android on AArch64 |"),
            "a type has another size or alignment on armv7-linux-gnueabi",
        ),
        ("fewer words", " `alloca`", "", "the module says alloca"),
    ] {
        let told = told(name, &module(), &changed(&page, from, to));
        let expected = format!("not made for AArch64: {refusal}");
        assert!(told.starts_with(&expected), "{told}");
    }
}
