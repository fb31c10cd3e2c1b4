//! The man page says what `ttw help` says, and the completion offers what the
//! command takes.

mod support;

use std::collections::BTreeSet;
use support::{is_installed, Folder, Run};

/// What `ttw help` prints about something.
fn help(folder: &Folder, topic: &[&str]) -> String {
    let Run { status, out, told } = folder.ttw(&[&["help"], topic].concat());
    assert_eq!((status, told.as_str()), (Some(0), ""), "{topic:?}");
    out
}

/// The commands, and the topics beside them, as `ttw help` lists them.
fn topics(folder: &Folder) -> (Vec<String>, Vec<String>) {
    let overview = help(folder, &[]);
    let mut commands: Vec<String> = Vec::new();
    for line in overview.lines() {
        let name = line
            .strip_prefix("  ttw ")
            .and_then(|rest| rest.split(' ').next());
        commands.extend(name.map(str::to_string));
    }
    commands.retain(|name| name != "help" && !name.starts_with('-'));
    let listed = overview
        .split_once("a command, or: ")
        .expect("the topics")
        .1;
    let listed = listed.lines().next().expect("their line");
    let topics = listed.split(", ").map(str::to_string).collect();
    assert_eq!(commands.len(), 10, "{commands:?}");
    (commands, topics)
}

/// All that `ttw help` says, what comes first on the page first.
fn all_help(folder: &Folder) -> Vec<String> {
    let (commands, topics) = topics(folder);
    let named = commands.iter().chain(&topics);
    let mut all = vec![help(folder, &[])];
    all.extend(named.map(|name| help(folder, &[name])));
    all
}

/// The words of a line of the page, headings but those of the commands left out.
fn words_of(line: &str) -> Vec<String> {
    let bare = match line.strip_prefix('.') {
        Some(macro_line) => ["SS ", "B "]
            .iter()
            .find_map(|name| macro_line.strip_prefix(name))
            .unwrap_or(""),
        None => line,
    };
    let bare = bare
        .replace("\\(aq", "'")
        .replace("\\-", "-")
        .replace("\\&", "")
        .replace("\\e", "\\");
    bare.split_whitespace().map(str::to_string).collect()
}

#[test]
fn the_man_page_says_what_help_says() {
    let folder = Folder::new();
    let page = help(&folder, &["--man"]);
    let version = env!("CARGO_PKG_VERSION");
    let title = format!(".TH TTW 1 \"\" \"ttw {version}\"\n.SH NAME\nttw \\- ");
    let said = page.strip_prefix(&title).expect("title and name");
    let said: Vec<String> = said.lines().flat_map(words_of).collect();
    let help = all_help(&folder).join("\n");
    // Of the first sentence the page has a dash behind the name and no full stop.
    let help = help.strip_prefix("ttw ").expect("a sentence about ttw");
    let help = help.replacen(".\n", "\n", 1);
    let words: Vec<&str> = help.split_whitespace().collect();
    assert_eq!(said, words);
    assert!(words.len() > 500, "{}", words.len());
}

#[test]
fn the_man_page_has_its_sections() {
    let page = help(&Folder::new(), &["--man"]);
    let section = |line: &str| line.strip_prefix(".SH ").map(str::to_string);
    let sections: Vec<String> = page.lines().filter_map(section).collect();
    let expected = [
        "NAME",
        "SYNOPSIS",
        "COMMANDS",
        "FILES",
        "REFUSALS",
        "EXIT STATUS",
    ];
    assert_eq!(sections, expected);
    assert_eq!(page.matches("\n.SS ttw ").count(), 10);
}

/// The words of a text, one space between them.
fn spaced(text: &str) -> String {
    let words: Vec<&str> = text.split_whitespace().collect();
    words.join(" ")
}

#[test]
fn the_man_page_renders_without_a_warning() {
    if !is_installed("groff") {
        eprintln!("Left out: the rendered man page, which needs groff.");
        return;
    }
    let folder = Folder::new();
    folder.put("ttw.1", help(&folder, &["--man"]).as_bytes());
    let groff = "groff -man -Tascii -ww -P-cbou -rHY=0 ttw.1";
    let rendered = folder.shell(groff);
    assert_eq!((rendered.status, rendered.told.as_str()), (Some(0), ""));
    let longest = rendered.out.lines().map(str::len).max();
    assert!(longest <= Some(80), "{longest:?}");
    let page = spaced(&rendered.out);
    for text in all_help(&folder) {
        let blocks = text.trim_end().split("\n\n").map(spaced);
        // The first sentence of all has a dash in it there.
        for block in blocks.filter(|block| !block.starts_with("ttw prints ")) {
            assert!(page.contains(&block), "{block}");
        }
    }
    if is_installed("man") {
        let man = folder.shell("LC_ALL=C man --warnings -l ttw.1");
        assert_eq!((man.status, man.told.as_str()), (Some(0), ""));
        assert!(man.out.contains("NAME"), "{}", man.out);
    }
}

/// What bash offers for the last of these words.
fn offered(folder: &Folder, words: &[&str]) -> Vec<String> {
    folder.put("completion", help(folder, &["--bash"]).as_bytes());
    let quoted: Vec<String> = words.iter().map(|word| format!("'{word}'")).collect();
    let run = folder.shell(&format!(
        "set -eu
        . ./completion
        COMP_WORDS=({}) COMP_CWORD={}
        $(complete -p ttw | sed 's/.*-F \\([^ ]*\\) .*/\\1/')
        printf '%s\\n' \"${{COMPREPLY[@]}}\"",
        quoted.join(" "),
        words.len() - 1
    ));
    assert_eq!((run.status, run.told.as_str()), (Some(0), ""), "{words:?}");
    let offered = run.out.lines().filter(|line| !line.is_empty());
    offered.map(str::to_string).collect()
}

fn set<S: ToString>(words: impl IntoIterator<Item = S>) -> BTreeSet<String> {
    words.into_iter().map(|word| word.to_string()).collect()
}

#[test]
fn bash_offers_every_command_and_topic() {
    let folder = Folder::new();
    let (commands, topics) = topics(&folder);
    let first = [
        &commands[..],
        &["help", "--help", "--version"].map(str::to_string),
    ]
    .concat();
    assert_eq!(set(offered(&folder, &["ttw", ""])), set(first));
    assert_eq!(offered(&folder, &["ttw", "la"]), ["labels"]);
    let of_help = commands.iter().chain(&topics);
    assert_eq!(set(offered(&folder, &["ttw", "help", ""])), set(of_help));
    assert!(offered(&folder, &["ttw", "nothing", ""]).is_empty());
}

#[test]
fn bash_offers_the_options_that_help_names() {
    let folder = Folder::new();
    for command in topics(&folder).0 {
        let text = help(&folder, &[&command]);
        let usage = text.split("\n\n").next().expect("the usage");
        let words = usage.split(|c: char| c.is_whitespace() || "[]()|".contains(c));
        let named = words.filter(|word| word.starts_with("--"));
        let named = named.chain(["--help", "--version"]);
        let shown = offered(&folder, &["ttw", &command, "-"]);
        assert_eq!(set(shown), set(named), "{command}");
    }
    let some = offered(&folder, &["ttw", "labels", "a", "b", "--co"]);
    assert_eq!(set(some), set(["--code", "--count"]));
}

#[test]
fn bash_offers_what_is_done_with_a_set_and_then_files() {
    let folder = Folder::new();
    folder.put("code list", b"");
    let verbs = ["check", "codes", "labels", "pack", "csv", "extract"];
    assert_eq!(set(offered(&folder, &["ttw", "main", ""])), set(verbs));
    assert_eq!(offered(&folder, &["ttw", "main", "co"]), ["codes"]);
    let files = offered(&folder, &["ttw", "main", "codes", "co"]);
    assert_eq!(set(files), set(["code list", "completion"]));
}

#[test]
fn bash_offers_what_is_done_with_a_book() {
    let verbs = ["new", "add", "list", "labels", "pack", "tidy"];
    let offers = offered(&Folder::new(), &["ttw", "book", ""]);
    assert_eq!(set(offers), set(verbs));
}

#[test]
fn bash_offers_files_where_a_file_is_taken() {
    let folder = Folder::new();
    folder.put("changes 1", b"");
    folder.put("changes2", b"");
    let both = ["changes 1", "changes2"];
    for words in [
        &["ttw", "check", "ch"][..],
        &["ttw", "show", "--nth", "1", "ch"],
        &["ttw", "show", "a.pack", "--out", "ch"],
        &["ttw", "show", "a.pack", "--out", "=", "ch"],
        &["ttw", "pack", "a", "b", "--all", "ch"],
        &["ttw", "labels", "--csv", "ch"],
    ] {
        assert_eq!(set(offered(&folder, words)), set(both), "{words:?}");
    }
    let all = offered(&folder, &["ttw", "show", "a.pack", "--out", "="]);
    assert_eq!(set(all), set([&both[..], &["completion"]].concat()));
    for option in [
        "--view", "--place", "--nth", "--count", "--most", "--code", "--area",
    ] {
        let words = ["ttw", "main", "labels", option, "ch"];
        assert!(offered(&folder, &words).is_empty(), "{option}");
        let words = ["ttw", "main", "labels", option, "=", "ch"];
        assert!(offered(&folder, &words).is_empty(), "{option}=");
    }
}
