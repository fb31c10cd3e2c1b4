//! The documents, and what stands in them.

use super::{names_in, root};
use std::fs;
use std::path::PathBuf;

/// The documents in a folder.
fn documents_in(folder: &str) -> Vec<PathBuf> {
    let folder = root().join(folder);
    let paths = names_in(&folder).into_iter().map(|name| folder.join(name));
    paths.filter(|path| path.is_file()).collect()
}

/// The documents, README first; but those that name what is no more, and a patch.
pub fn documents() -> Vec<PathBuf> {
    let mut documents = vec![root().join("README.md")];
    for folder in ["docs", "docs/calls", "docs/landings"] {
        documents.extend(documents_in(folder));
    }
    documents.push(root().join("CHANGELOG.md"));
    let left_out = [
        "docs/PORT.md",
        "docs/DESIGN-PASS.md",
        "docs/design-left.patch",
    ];
    documents.retain(|path| !left_out.iter().any(|name| path.ends_with(name)));
    documents
}

pub fn text_of(name: &str) -> String {
    fs::read_to_string(root().join(name)).expect("a document")
}

/// A block between fences: the word behind the first fence, and its lines.
pub struct Block {
    pub kind: String,
    pub lines: Vec<String>,
}

pub fn blocks(text: &str) -> Vec<Block> {
    let mut blocks = Vec::new();
    let mut lines = text.lines();
    while let Some(line) = lines.next() {
        if let Some(kind) = line.strip_prefix("```") {
            blocks.push(Block {
                kind: kind.to_string(),
                lines: lines
                    .by_ref()
                    .take_while(|line| *line != "```")
                    .map(str::to_string)
                    .collect(),
            });
        }
    }
    blocks
}

/// The cells of a table's line.
fn cells(line: &str) -> Vec<String> {
    let cells = line.trim_matches('|').split('|');
    cells.map(|cell| cell.trim().to_string()).collect()
}

/// The cells of a table's rows, without its head.
pub fn rows(text: &str, head: &str) -> Vec<Vec<String>> {
    let table = text.lines().skip_while(|line| !line.starts_with(head));
    let rows = table.skip(2).take_while(|line| line.starts_with('|'));
    rows.map(cells).collect()
}

/// What stands in a text between backticks, in one line each.
pub fn quoted(text: &str) -> Vec<String> {
    let in_line = |line: &str| -> Vec<String> {
        let odd = line.split('`').skip(1).step_by(2);
        odd.map(str::to_string).collect()
    };
    text.lines().flat_map(in_line).collect()
}

/// A part of a document below a heading that begins with a name between backticks.
pub struct Section {
    pub name: String,
    pub text: String,
}

/// The sections under headings of a mark, `## ` or `### `. A heading of the same rank or a higher one ends a section.
pub fn sections(text: &str, mark: &str) -> Vec<Section> {
    let mut sections: Vec<Section> = Vec::new();
    let mut open = false;
    for line in text.lines() {
        let rank = line.split(' ').next().unwrap_or("");
        if rank.starts_with('#') && rank.len() < mark.len() {
            let name = line
                .strip_prefix(mark)
                .and_then(|rest| rest.strip_prefix('`'));
            let name = name.and_then(|rest| rest.split('`').next());
            open = name.is_some();
            sections.extend(name.map(|name| Section {
                name: name.to_string(),
                text: String::new(),
            }));
        } else if let Some(section) = sections.last_mut().filter(|_| open) {
            section.text += &format!("{line}\n");
        }
    }
    sections
}
