//! The man page, `ttw.1`, made of the text that `ttw help` prints.

use crate::help::{OVERVIEW, TOPICS};
use crate::COMMANDS;

/// The page as `man` reads it: what `ttw help` says, then each command, then each
/// topic.
pub fn page() -> String {
    let version = env!("CARGO_PKG_VERSION");
    let mut page = format!(".TH TTW 1 \"\" \"ttw {version}\"\n");
    let mut blocks = OVERVIEW.split("\n\n");
    page += &name(blocks.next().expect("a first line"));
    page += ".SH SYNOPSIS\n";
    let (synopsis, rest): (Vec<&str>, Vec<&str>) = blocks.partition(|block| is_indented(block));
    synopsis
        .iter()
        .for_each(|block| page += &as_it_stands(block));
    page += ".SH COMMANDS\n";
    rest.iter().for_each(|block| page += &paragraph(block));
    for command in &COMMANDS {
        let (usage, rest) = command.help.split_once("\n\n").expect("usage, then words");
        page += &format!(".SS {}\n", escaped(&joined(usage)));
        page += &text(rest);
    }
    for (topic, words) in TOPICS {
        let heading = match topic {
            "status" => "EXIT STATUS".to_string(),
            topic => topic.to_uppercase(),
        };
        page += &format!(".SH {heading}\n{}", text(words));
    }
    page
}

/// The section by which a page is found: the first sentence with a dash behind
/// the name.
fn name(sentence: &str) -> String {
    let said = sentence.trim_start_matches("ttw ").trim_end_matches('.');
    format!(".SH NAME\nttw \\- {}\n", escaped(said))
}

/// Paragraphs and lists, each behind an empty line.
fn text(words: &str) -> String {
    let block = |block: &str| match tagged(block.lines().next().unwrap_or("")) {
        Some(_) => list(block),
        None => paragraph(block),
    };
    words.trim_end().split("\n\n").map(block).collect()
}

fn paragraph(block: &str) -> String {
    format!(".PP\n{}\n", escaped(&joined(block)))
}

/// Lines that keep their places, but for the margin, which the page has itself.
fn as_it_stands(block: &str) -> String {
    let bare = |line: &str| escaped(line.strip_prefix("  ").unwrap_or(line));
    let lines: Vec<String> = block.lines().map(bare).collect();
    format!(".PP\n.nf\n{}\n.fi\n", lines.join("\n"))
}

/// A list: a line with a tag begins an entry, any other goes on with it.
fn list(block: &str) -> String {
    let entry = |line: &str| match tagged(line) {
        Some((tag, words)) => format!(".TP\n.B {}\n{}\n", escaped(tag), escaped(words)),
        None => format!("{}\n", escaped(line.trim())),
    };
    block.lines().map(entry).collect()
}

/// A tag and the words behind it, between them more than one space.
fn tagged(line: &str) -> Option<(&str, &str)> {
    let (tag, words) = line.trim().split_once("  ")?;
    Some((tag, words.trim_start()))
}

fn is_indented(block: &str) -> bool {
    block.starts_with("  ")
}

/// The words of some lines on one.
fn joined(lines: &str) -> String {
    let words: Vec<&str> = lines.split_whitespace().collect();
    words.join(" ")
}

/// A line in which nothing is read as a command of the page's.
fn escaped(line: &str) -> String {
    let line = line
        .replace('\\', "\\e")
        .replace('-', "\\-")
        .replace('\'', "\\(aq");
    match line.starts_with('.') {
        true => format!("\\&{line}"),
        false => line,
    }
}
