//! The pages that speak of the crates say what stands in the tree. Each test tells all that it finds, so that a page
//! can be mended at once.

mod support;

use std::collections::{BTreeMap, BTreeSet};
use std::fs;
use std::path::Path;
use support::pages::{blocks, documents, quoted, rows, sections, text_of, Section};
use support::tree::{
    all_paths, crate_names, crates, declared, edits, family, files_below, pages_of_specs,
    pages_reached, public, public_functions, words_of,
};
use support::{names_in, root};

const ARCHITECTURE: &str = "docs/ARCHITECTURE.md";
const PROMISES: &str = "docs/PROMISES.md";
const READING_ORDER: &str = "docs/READING-ORDER.md";

/// Fails where there is something to tell.
#[track_caller]
fn nothing_of(told: Vec<String>) {
    assert!(told.is_empty(), "\n{}\n", told.join("\n"));
}

/// What a page shows that is not there, what is there and not shown, and what is shown twice.
fn differences(place: &str, shown: &[String], there: &[String]) -> Vec<String> {
    let mut told = Vec::new();
    let names: BTreeSet<&String> = shown.iter().chain(there).collect();
    for name in names {
        let times = shown.iter().filter(|shown| *shown == name).count();
        match (times, there.contains(name)) {
            (0, _) => told.push(format!("{place}: `{name}` is missing")),
            (_, false) => told.push(format!("{place}: `{name}` is not in the tree")),
            (1, true) => {}
            (_, true) => told.push(format!("{place}: `{name}` stands {times} times")),
        }
    }
    told
}

/// The families, each with the families that it uses.
fn families() -> BTreeMap<String, BTreeSet<String>> {
    let crates = crates();
    let ours: BTreeSet<&str> = crates.iter().map(|each| each.name.as_str()).collect();
    let mut families: BTreeMap<String, BTreeSet<String>> = BTreeMap::new();
    for each in &crates {
        let here = family(&each.name);
        let below = each.uses.iter().map(String::as_str);
        let below = below.filter(|used| ours.contains(used)).map(family);
        let uses = families.entry(here.to_string()).or_default();
        uses.extend(below.filter(|used| *used != here).map(str::to_string));
    }
    families
}

#[test]
fn the_list_of_crates_has_each_behind_those_that_it_uses() {
    let crates = crates();
    let place = |name: &str| crates.iter().position(|each| each.name == name);
    let mut told = Vec::new();
    for (here, each) in crates.iter().enumerate() {
        let below = |used: &&String| place(used).is_some_and(|place| place >= here);
        let below = each.uses.iter().filter(below);
        told.extend(below.map(|used| {
            format!(
                "crates.txt: {} uses {used}, which stands below it",
                each.name
            )
        }));
    }
    nothing_of(told);
}

#[test]
fn each_crate_stands_under_its_family() {
    let all = crate_names();
    let text = text_of(ARCHITECTURE);
    let mut told = Vec::new();
    let mut shown = Vec::new();
    for section in sections(&text, "### ") {
        let entries = section
            .text
            .lines()
            .filter_map(|line| line.strip_prefix("- `"));
        for name in entries.filter_map(|entry| entry.split('`').next()) {
            if family(name) != section.name {
                told.push(format!(
                    "{ARCHITECTURE}: `{name}` stands under `{}`",
                    section.name
                ));
            }
            shown.push(name.to_string());
        }
    }
    told.extend(differences(ARCHITECTURE, &shown, &all));
    nothing_of(told);
}

#[test]
fn the_arrows_between_families_are_those_of_the_crates() {
    let families = families();
    let table = rows(&text_of(ARCHITECTURE), "| family |");
    let shown: Vec<String> = table.iter().flat_map(|cells| quoted(&cells[0])).collect();
    let all: Vec<String> = families.keys().cloned().collect();
    let mut told = differences(&format!("{ARCHITECTURE}, the families"), &shown, &all);
    for cells in &table {
        let name = cells[0].trim_matches('`');
        let there: Vec<String> = families.get(name).into_iter().flatten().cloned().collect();
        let place = format!("{ARCHITECTURE}, what `{name}` uses");
        told.extend(differences(&place, &quoted(&cells[2]), &there));
    }
    nothing_of(told);
}

/// The first line of a picture that has a name as a word.
fn line_with(picture: &[String], name: &str) -> Option<usize> {
    let is_name = |word: &str| word == name;
    let has = |line: &String| line.split(|c: char| !c.is_alphanumeric()).any(is_name);
    picture.iter().position(has)
}

/// The picture of the families.
fn picture() -> Vec<String> {
    let top = |lines: &[String]| lines.first().is_some_and(|line| line.trim() == "demands");
    let mut pictures = blocks(&text_of(ARCHITECTURE)).into_iter();
    let found = pictures.find(|block| top(&block.lines));
    found.expect("a picture with `demands` on top").lines
}

#[test]
fn the_picture_has_each_family_above_what_it_uses() {
    let families = families();
    let picture = picture();
    let mut told = Vec::new();
    for (name, uses) in &families {
        let here = line_with(&picture, name);
        if here.is_none() {
            told.push(format!("{ARCHITECTURE}: the picture has no `{name}`"));
        }
        // Two that use each other stand as they like.
        let one_way = |used: &&String| !families[*used].contains(name);
        for used in uses.iter().filter(one_way) {
            let above = line_with(&picture, used).is_some_and(|line| Some(line) < here);
            if above {
                told.push(format!(
                    "{ARCHITECTURE}: `{name}` uses `{used}`, which the picture has above it"
                ));
            }
        }
    }
    nothing_of(told);
}

/// The page that has the calls of a family.
fn page_of(family: &str) -> String {
    match family {
        "demands" | "ttwibonal" => PROMISES.to_string(),
        _ => format!("docs/calls/{family}.md"),
    }
}

/// The head that every table of calls has at its end.
const EDITS: &str = "| edits that are refused |";

/// The calls and the edits that a section names.
fn named(section: &Section) -> (Vec<String>, Vec<String>) {
    let (mut calls, mut named) = (Vec::new(), Vec::new());
    for table in section.text.split("\n\n").map(str::trim) {
        let head = table.lines().next().filter(|head| head.ends_with(EDITS));
        for cells in head.into_iter().flat_map(|head| rows(table, head)) {
            calls.extend(quoted(&cells[0]));
            named.extend(quoted(&cells[cells.len() - 1]));
        }
    }
    let text = section.text.lines().filter(|line| !line.starts_with('|'));
    let behind = text.filter_map(|line| line.split_once("Edits: ").or(line.split_once("Edit: ")));
    named.extend(behind.flat_map(|(_, edits)| quoted(edits)));
    (calls, named)
}

/// What a section says of its crate that is not so, or leaves out.
fn untrue_of(page: &str, section: &Section) -> Vec<String> {
    let name = &section.name;
    if page_of(family(name)) != page {
        return vec![format!(
            "{page}: the section `{name}` belongs into {}",
            page_of(family(name))
        )];
    }
    let (calls, named) = named(section);
    let mut told = differences(
        &format!("{page}, calls of `{name}`"),
        &calls,
        &public_functions(name),
    );
    told.extend(differences(
        &format!("{page}, edits of `{name}`"),
        &named,
        &edits(name),
    ));
    told
}

/// The pages of calls, by their family.
fn pages_of_calls() -> Vec<(String, String)> {
    let names = names_in(&root().join("docs/calls"));
    let family_and_page = |name: &String| {
        let family = name.trim_end_matches(".md");
        (family.to_string(), format!("docs/calls/{name}"))
    };
    names.iter().map(family_and_page).collect()
}

#[test]
fn each_page_of_calls_is_a_familys_and_stands_in_the_list() {
    let families = families();
    let mut told = Vec::new();
    for (family, page) in pages_of_calls() {
        if !families.contains_key(&family) {
            told.push(format!("{page}: there is no family `{family}`"));
        }
        if !text_of(PROMISES).contains(&page) {
            told.push(format!("{PROMISES} does not name {page}"));
        }
    }
    nothing_of(told);
}

#[test]
fn each_call_and_each_edit_stands_on_its_familys_page() {
    let mut pages: Vec<String> = pages_of_calls().into_iter().map(|(_, page)| page).collect();
    pages.push(PROMISES.to_string());
    let mut told = Vec::new();
    let mut shown = Vec::new();
    for page in &pages {
        for section in sections(&text_of(page), "## ") {
            told.extend(untrue_of(page, &section));
            shown.push(section.name);
        }
    }
    let has_any = |name: &String| !public_functions(name).is_empty() || !edits(name).is_empty();
    let there: Vec<String> = crate_names()
        .into_iter()
        .filter(|name| shown.contains(name) || has_any(name))
        .collect();
    told.extend(differences("the sections of these pages", &shown, &there));
    nothing_of(told);
}

/// The one public call whose contract is silent: it reads and prints.
const SILENT: &str = "report_folder::show";

/// What a contract lacks to give one answer for every input, as far as its text shows: it has a condition, it promises
/// nothing, or it promises something only where something else holds.
fn less_than_one_answer(head: &str) -> Option<&'static str> {
    let words = |word: &str| head.split_whitespace().any(|each| each == word);
    if words("requires") {
        Some("has a condition")
    } else if !words("ensures") {
        Some("promises nothing")
    } else if words("→") {
        Some("promises something only where something else holds")
    } else {
        None
    }
}

#[test]
fn a_public_call_outside_inner_has_no_condition_and_one_answer() {
    let mut told = Vec::new();
    for call in crate_names().iter().flat_map(|name| public(name)) {
        let in_inner = call.path.split("::").any(|part| part == "inner");
        if in_inner || call.path == SILENT {
            continue;
        }
        let less = less_than_one_answer(&call.head);
        told.extend(less.map(|less| format!("`{}` {less}", call.path)));
    }
    if !text_of(PROMISES).contains(SILENT) {
        told.push(format!("{PROMISES} does not name `{SILENT}`"));
    }
    nothing_of(told);
}

/// Each name between backticks in a document for which a test says no.
fn stale(is_there: impl Fn(&str) -> bool) -> Vec<String> {
    let mut told = Vec::new();
    for document in documents() {
        let text = fs::read_to_string(&document).expect("a document");
        let place = document.strip_prefix(root()).unwrap_or(&document).display();
        let names = quoted(&text).into_iter().filter(|name| !is_there(name));
        told.extend(names.map(|name| format!("{place}: the crates have no `{name}`")));
    }
    told
}

#[test]
fn the_code_has_what_documents_name_by_its_path() {
    let all = crates();
    let paths: BTreeSet<String> = all.iter().flat_map(|each| all_paths(&each.name)).collect();
    let used: BTreeSet<&String> = all.iter().flat_map(|each| &each.uses).collect();
    let ours = |name: &str| all.iter().any(|each| each.name == name);
    let of_the_kit = |name: &str| used.contains(&name.to_string()) && !ours(name);
    nothing_of(stale(|name| {
        let first = name.split("::").next().expect("a name");
        let of_a_type = |path: &String| path.ends_with(&format!("::{name}"));
        !name.contains("::")
            || of_the_kit(first)
            || paths.contains(name)
            || first.starts_with(char::is_uppercase) && paths.iter().any(of_a_type)
    }));
}

/// The crates, their edits, and all that their code names, without a path.
fn bare_names() -> BTreeSet<String> {
    let mut names = BTreeSet::new();
    for name in crate_names() {
        let last = |path: String| path.rsplit("::").next().expect("a name").to_string();
        names.extend(all_paths(&name).into_iter().map(last));
        names.extend(edits(&name));
        names.insert(name);
    }
    names
}

#[test]
fn a_name_in_a_document_that_begins_with_a_family_is_there() {
    let (families, names) = (families(), bare_names());
    nothing_of(stale(|name| {
        let is_word = name.chars().all(|c| c.is_ascii_alphanumeric() || c == '_');
        let of_a_family = name.contains('_') && families.contains_key(family(name));
        !is_word || !of_a_family || names.contains(name)
    }));
}

/// A definition or a law in a document, its module before it. A file's name is none.
fn is_declared_name(word: &str) -> bool {
    let parts = word.split_once('.');
    parts.is_some_and(|(module, rest)| {
        module.starts_with(char::is_uppercase) && !["antt", "pack"].contains(&rest)
    })
}

#[test]
fn the_crates_have_what_documents_name_by_its_module() {
    let names = crate_names();
    let declared: BTreeSet<String> = names.iter().flat_map(|name| declared(name)).collect();
    nothing_of(stale(|name| {
        let word = name.split(' ').next().expect("a word");
        !is_declared_name(word) || declared.contains(word)
    }));
}

#[test]
fn the_modules_that_documents_name_exist() {
    let folder = root().join("crates");
    nothing_of(stale(|name| match name.strip_suffix(".antt") {
        Some(module) if module.contains('/') => folder.join(name).is_file(),
        _ => true,
    }));
}

/// The pages of definitions that a part of a document names.
fn pages_in(text: &str) -> Vec<String> {
    let is_page = |name: &String| name.contains("/specs/");
    quoted(text).into_iter().filter(is_page).collect()
}

#[test]
fn the_reading_order_has_what_the_calls_and_the_demands_use() {
    let text = text_of(READING_ORDER);
    let below = text
        .split_once("## What has to be believed")
        .expect("a part")
        .1;
    let (believed, others) = below
        .split_once("## What the programs print")
        .expect("a part");
    let is_start = |page: &String| page.starts_with("call/") || page.starts_with("demands");
    let reached = pages_reached(pages_of_specs().into_iter().filter(is_start).collect());
    let (used, left): (Vec<String>, Vec<String>) = pages_of_specs()
        .into_iter()
        .partition(|page| reached.contains(page));
    let place = format!("{READING_ORDER}, what has to be believed");
    let mut told = differences(&place, &pages_in(believed), &used);
    let place = format!("{READING_ORDER}, what needs no belief");
    told.extend(differences(&place, &pages_in(others), &left));
    nothing_of(told);
}

/// What only those speak of that know a file of Changes: widths of its records, and its names.
const OF_FILES: [&str; 14] = [
    "168",
    "169",
    "Formats",
    "check_points",
    "check_table",
    "file_check",
    "file_formats",
    "point_fault",
    "point_format",
    "point_record",
    "table_fault",
    "table_format",
    "table_lookup",
    "table_record",
];

/// Whether a word of a crate, or a part of a path, is such a name, a kind of record, the page that names the places of
/// its fields, or a crate of `changes`.
fn knows_a_file(word: &str) -> bool {
    let kind = word.strip_prefix("file_record::");
    kind.is_some_and(|kind| kind.starts_with(char::is_uppercase))
        || word.contains("file_record.specs.Names")
        || word
            .split([':', '.'])
            .any(|part| OF_FILES.contains(&part) || part.starts_with("changes_"))
}

/// Each place of a crate where it speaks of a file of Changes.
fn places_with_a_file(name: &str) -> Vec<String> {
    let folder = root().join("crates").join(name);
    let mut told = Vec::new();
    for part in ["src", "specs", "proofs"] {
        for file in files_below(&folder.join(part)) {
            let place = file
                .strip_prefix(root())
                .unwrap_or(Path::new(""))
                .display()
                .to_string();
            let words = words_of(&file)
                .into_iter()
                .filter(|(_, word)| knows_a_file(word));
            told.extend(words.map(|(line, word)| format!("{place}:{line}: {word}")));
        }
    }
    told
}

#[test]
fn label_ask_pack_and_build_know_no_file() {
    let is_above = |name: &&String| {
        let above = ["label", "ask", "pack", "build"];
        above.iter().any(|start| name.starts_with(start))
    };
    let names = crate_names();
    let above = names.iter().filter(is_above);
    nothing_of(above.flat_map(|name| places_with_a_file(name)).collect());
}
