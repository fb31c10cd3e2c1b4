//! The crates as they stand in the tree: their arrows in `crates.txt`, the items of `src/`, the edits of `must-fail/`.

use super::{names_in, root};
use std::collections::BTreeSet;
use std::fs;
use std::path::Path;

/// A crate, and the crates that it uses.
pub struct Crate {
    pub name: String,
    pub uses: Vec<String>,
}

/// The crates in the order of `crates.txt`.
pub fn crates() -> Vec<Crate> {
    let text = fs::read_to_string(root().join("crates.txt")).expect("crates.txt");
    let lines = text.lines().filter(|line| !line.starts_with('#'));
    // Behind the name of a library for C stands `staticlib`.
    let of = |(name, uses): (&str, &str)| Crate {
        name: name_of(name).to_string(),
        uses: uses.split_whitespace().map(str::to_string).collect(),
    };
    lines
        .filter_map(|line| line.split_once(':').map(of))
        .collect()
}

/// The names of the crates.
pub fn crate_names() -> Vec<String> {
    crates().into_iter().map(|each| each.name).collect()
}

/// The family of a crate: what its name begins with.
pub fn family(name: &str) -> &str {
    name.split('_').next().expect("a name")
}

/// The names of a crate's must-fail edits.
pub fn edits(name: &str) -> Vec<String> {
    names_in(&root().join("crates").join(name).join("must-fail"))
        .iter()
        .filter_map(|file| file.strip_suffix(".edit"))
        .map(str::to_string)
        .collect()
}

/// Something that the code of a crate names.
struct Item {
    /// Where it stands, `""` being the crate's root.
    module: String,
    /// A type's own things have the type before them: `Cursor::fresh`.
    name: String,
    kind: Kind,
    public: bool,
    /// Of a function, what stands before its body.
    head: String,
}

#[derive(PartialEq, Eq)]
enum Kind {
    Function,
    /// A function for C, which has no path there.
    Exported,
    Module,
    /// A name for what stands elsewhere in the crate.
    Alias(String),
    Other,
}

/// A path of parts, of which some are empty.
fn path(parts: &[&str]) -> String {
    let parts: Vec<&str> = parts
        .iter()
        .filter(|part| !part.is_empty())
        .copied()
        .collect();
    parts.join("::")
}

/// The name that a text begins with.
fn name_of(text: &str) -> &str {
    let end = text.find(|c: char| !c.is_alphanumeric() && c != '_');
    &text[..end.unwrap_or(text.len())]
}

/// What a line says that is no case of an enum.
fn item_of(line: &str) -> Option<(Kind, &str)> {
    let (word, rest) = line.split_once(' ')?;
    match word {
        "fn" => Some((Kind::Function, name_of(rest))),
        "extern" => Some((Kind::Exported, name_of(rest.strip_prefix("\"C\" fn ")?))),
        "mod" => Some((Kind::Module, name_of(rest))),
        "struct" | "enum" | "const" | "type" => Some((Kind::Other, name_of(rest))),
        _ => None,
    }
}

/// The paths that a `use` names, which may end on a later line: `a::{b, c}` is two.
fn paths_used(lines: &[&str]) -> Vec<String> {
    let mut text = String::new();
    for line in lines {
        text += line.trim();
        if line.ends_with(';') {
            break;
        }
    }
    let whole = text.trim_end_matches(';').trim_start_matches("pub ");
    let Some(whole) = whole.strip_prefix("use ") else {
        return Vec::new();
    };
    let whole = whole.trim_start_matches("crate::");
    match whole.split_once('{') {
        Some((before, names)) => {
            let names = names.trim_end_matches('}').split(',').map(str::trim);
            let names = names.filter(|name| !name.is_empty());
            names.map(|name| format!("{before}{name}")).collect()
        }
        None => vec![whole.to_string()],
    }
}

/// What stands before the body of a function: its parameters and its contract.
fn head_of(lines: &[&str]) -> String {
    let body = lines.iter().position(|line| line.ends_with('{'));
    lines[..body.unwrap_or(lines.len())].join("\n")
}

/// The items of one file. A line that is not indented opens or ends a type; one that is indented once may be the
/// type's own.
fn items_of(module: &str, text: &str) -> Vec<Item> {
    let mut items = Vec::new();
    let mut owner = "";
    let lines: Vec<&str> = text.lines().collect();
    for (at, line) in lines.iter().enumerate() {
        let own = line.strip_prefix("    ");
        let bare = own.unwrap_or(line);
        let open = bare.strip_prefix("pub ").unwrap_or(bare);
        if own.is_none() {
            let opened = ["impl ", "enum "]
                .iter()
                .find_map(|word| open.strip_prefix(word));
            owner = opened.map_or("", name_of);
            items.extend(paths_used(&lines[at..]).into_iter().map(|used| Item {
                module: module.to_string(),
                name: used.rsplit("::").next().unwrap_or(&used).to_string(),
                kind: Kind::Alias(used),
                public: bare != open,
                head: String::new(),
            }));
        }
        let case = own.is_some() && bare.starts_with(char::is_uppercase);
        let item = item_of(open).or(case.then(|| (Kind::Other, name_of(bare))));
        if let Some((kind, name)) = item.filter(|_| own.is_none() || !owner.is_empty()) {
            items.push(Item {
                module: module.to_string(),
                name: path(&[if own.is_some() { owner } else { "" }, name]),
                kind,
                public: bare != open,
                head: head_of(&lines[at..]),
            });
        }
    }
    items
}

/// The items of a crate.
fn items(name: &str) -> Vec<Item> {
    let folder = root().join("crates").join(name).join("src");
    let mut items = Vec::new();
    for file in names_in(&folder) {
        let module = match file.trim_end_matches(".rt") {
            "lib" | "main" => "",
            module => module,
        };
        let text = fs::read_to_string(folder.join(&file)).expect("a file of code");
        items.extend(items_of(module, &text));
    }
    items
}

/// Other paths of an item: through each `pub use` of it, or of its type, in the crate.
fn other_paths<'a>(item: &'a Item, items: &'a [Item]) -> impl Iterator<Item = (&'a Item, String)> {
    let here = path(&[&item.module, &item.name]);
    items.iter().filter_map(move |alias| match &alias.kind {
        Kind::Alias(whole) if alias.public => {
            let rest = here.strip_prefix(whole.as_str())?;
            let whole_name = rest.is_empty() || rest.starts_with("::");
            whole_name.then(|| (alias, path(&[&alias.module, &alias.name]) + rest))
        }
        _ => None,
    })
}

/// A function that others can call.
pub struct Public {
    /// Those for C have their name alone.
    pub path: String,
    /// What stands before its body: its parameters and its contract.
    pub head: String,
}

/// The functions of a crate that others can call.
pub fn public(name: &str) -> Vec<Public> {
    let items = items(name);
    let is_open = |module: &str| {
        let declares = |item: &&Item| item.kind == Kind::Module && item.name == module;
        module.is_empty() || items.iter().find(declares).is_some_and(|item| item.public)
    };
    let mut functions = Vec::new();
    for item in items.iter().filter(|item| item.public) {
        let mut paths = Vec::new();
        if item.kind == Kind::Exported {
            paths.push(item.name.clone());
        }
        if item.kind == Kind::Function {
            if is_open(&item.module) {
                paths.push(path(&[name, &item.module, &item.name]));
            }
            let others = other_paths(item, &items).filter(|(alias, _)| is_open(&alias.module));
            paths.extend(others.map(|(_, other)| path(&[name, &other])));
        }
        functions.extend(paths.into_iter().map(|path| Public {
            path,
            head: item.head.clone(),
        }));
    }
    functions.sort_by(|one, other| one.path.cmp(&other.path));
    functions
}

/// The paths of the functions of a crate that others can call, those for C by their name.
pub fn public_functions(name: &str) -> Vec<String> {
    public(name).into_iter().map(|each| each.path).collect()
}

/// Every path that the code of a crate has a thing at, public or not.
pub fn all_paths(name: &str) -> Vec<String> {
    let items = items(name);
    let mut paths = Vec::new();
    let hidden = |item: &&Item| matches!(item.kind, Kind::Alias(_)) && !item.public;
    for item in items.iter().filter(|item| !hidden(item)) {
        paths.push(path(&[name, &item.module, &item.name]));
        paths.extend(other_paths(item, &items).map(|(_, other)| path(&[name, &other])));
    }
    paths
}

/// What a line of a module declares, if it does: the first word that does not say how.
fn declared_by(line: &str) -> Option<&str> {
    let how = ["abbrev", "unfoldable", "pub", "record", "data"];
    line.split_whitespace().find(|word| !how.contains(word))
}

/// What the definitions and laws of a crate declare, each behind its module: `Resolve.resolve`.
pub fn declared(name: &str) -> Vec<String> {
    let folder = root().join("crates").join(name);
    let mut declared = Vec::new();
    for file in ["specs", "proofs"]
        .iter()
        .flat_map(|part| files_below(&folder.join(part)))
    {
        let text = fs::read_to_string(&file).expect("a module");
        let module = file.file_stem().expect("a name").to_string_lossy();
        let names = text.lines().filter_map(declared_by);
        declared.extend(names.map(|name| format!("{module}.{name}")));
    }
    declared
}

/// Whether a page of definitions has some of its own, and does not only list others.
fn defines(page: &str) -> bool {
    let text = fs::read_to_string(root().join("crates").join(page)).expect("a page");
    let lists = |line: &str| line.starts_with("--") || line.starts_with("pub mod ");
    !text.lines().all(lists)
}

/// The pages of definitions of all crates: `call/specs/Call.antt`.
pub fn pages_of_specs() -> Vec<String> {
    let folder = root().join("crates");
    let names = crate_names();
    let files = names
        .iter()
        .flat_map(|name| files_below(&folder.join(name).join("specs")));
    let pages = files.map(|file| {
        let page = file.strip_prefix(&folder).expect("a file of a crate");
        page.to_string_lossy().to_string()
    });
    pages.filter(|page| defines(page)).collect()
}

/// The page of definitions that a line of a module uses, if it does.
fn page_used(line: &str) -> Option<String> {
    let line = line.strip_prefix("pub ").unwrap_or(line);
    let line = line.strip_prefix("use Rattle.")?;
    let end = line.find(|c: char| !c.is_alphanumeric() && !"_.".contains(c));
    let (name, path) = line[..end.unwrap_or(line.len())].split_once(".specs.")?;
    let parts: Vec<&str> = path.split('.').filter(|part| !part.is_empty()).collect();
    // What stands behind a module's name is a name in it.
    let mut pages = (1..=parts.len())
        .rev()
        .map(|count| format!("{name}/specs/{}.antt", parts[..count].join("/")));
    pages.find(|page| root().join("crates").join(page).is_file())
}

/// Pages of definitions, and all that these use, directly or through others.
pub fn pages_reached(mut from: Vec<String>) -> BTreeSet<String> {
    let mut reached = BTreeSet::new();
    while let Some(page) = from.pop() {
        if reached.insert(page.clone()) {
            let text = fs::read_to_string(root().join("crates").join(&page)).expect("a page");
            from.extend(text.lines().filter_map(page_used));
        }
    }
    reached
}

/// The words and paths of a file of a crate, with their lines.
pub fn words_of(file: &Path) -> Vec<(usize, String)> {
    let text = fs::read_to_string(file).expect("a file of a crate");
    let words = |(line, text): (usize, &str)| {
        let words = text.split(|c: char| !c.is_alphanumeric() && !"_:.".contains(c));
        let words: Vec<_> = words.map(|word| (line + 1, word.to_string())).collect();
        words
    };
    text.lines().enumerate().flat_map(words).collect()
}

/// The files of a crate in a folder and below it.
pub fn files_below(folder: &Path) -> Vec<std::path::PathBuf> {
    let mut files = Vec::new();
    for name in names_in(folder) {
        let path = folder.join(name);
        if path.is_dir() {
            files.extend(files_below(&path));
        } else {
            files.push(path);
        }
    }
    files
}
