// The names that the crates define, and the names that a page has between backticks.
use std::collections::BTreeMap;
use std::fs;
use std::path::{Path, PathBuf};

pub struct Tree {
    // by crate, then by path without its ending (specs/Words, src/lib, must-fail): the names that it defines
    pub names: BTreeMap<String, BTreeMap<String, Vec<String>>>,
}

pub fn files(at: &Path, out: &mut Vec<PathBuf>) {
    let mut entries: Vec<_> = fs::read_dir(at).map(|d| d.flatten().map(|e| e.path()).collect()).unwrap_or_default();
    entries.sort();
    for path in entries {
        if path.is_dir() {
            // crates/NAME/out is made by rt
            if !(path.components().count() == 3 && path.ends_with("out")) {
                files(&path, out);
            }
        } else {
            out.push(path);
        }
    }
}

// The word at the start of a text, with the signs that names have.
pub fn word(text: &str) -> &str {
    let end = text.find(|c: char| c.is_whitespace() || "(){}:;,<=".contains(c)).unwrap_or(text.len());
    &text[..end]
}

fn defined(line: &str, code: bool) -> Option<String> {
    let mut rest = line.trim_start();
    let field = rest.len() < line.len();
    let mut marked = false;
    while let Some((head, tail)) = rest.split_once(' ') {
        let skipped = if code { &["pub", "pub(crate)", "const", "fn", "struct", "enum"][..] } else { &["pub", "abbrev", "unfoldable", "record", "data"][..] };
        if !skipped.contains(&head) {
            break;
        }
        marked = marked || !head.starts_with("pub");
        rest = tail.trim_start();
    }
    let name = word(rest);
    if name.is_empty() || (code && !marked) {
        return None;
    }
    // a definition's or law's type, or the head of a record; a field of a record stands further in
    let typed = rest[name.len()..].trim_start().starts_with(':') || (!code && marked);
    if code || (typed && (!field || line.starts_with("  "))) { Some(name.to_string()) } else { None }
}

pub fn tree() -> Tree {
    let mut names = BTreeMap::new();
    let mut all = Vec::new();
    files(Path::new("crates"), &mut all);
    for path in all {
        let parts: Vec<String> = path.components().map(|c| c.as_os_str().to_string_lossy().into_owned()).collect();
        let (krate, stem) = (parts[1].clone(), path.file_stem().unwrap().to_string_lossy().into_owned());
        let ending = path.extension().map(|e| e.to_string_lossy().into_owned()).unwrap_or_default();
        let places: &mut BTreeMap<String, Vec<String>> = names.entry(krate).or_default();
        if ending == "edit" {
            places.entry("must-fail".to_string()).or_default().push(stem);
        } else if ending == "rt" || ending == "antt" {
            let text = fs::read_to_string(&path).unwrap_or_default();
            let place = path.with_extension("").components().skip(2).map(|c| c.as_os_str().to_string_lossy().into_owned()).collect::<Vec<_>>().join("/");
            places.entry(place).or_default().extend(text.lines().filter_map(|l| defined(l, ending == "rt")));
        }
    }
    Tree { names }
}

impl Tree {
    // Whether a crate has a name, in the places that begin so.
    fn has(&self, krate: &str, begins: &str, name: &str) -> bool {
        self.names.get(krate).is_some_and(|p| p.iter().any(|(place, names)| place.starts_with(begins) && names.iter().any(|n| n == name)))
    }

    fn has_anywhere(&self, name: &str) -> bool {
        self.names.keys().any(|krate| self.has(krate, "", name))
    }

    // Whether the place (crate, crate/specs, crate/specs/File) has the name; None if there is no such place.
    fn at(&self, place: &str, name: &str) -> Option<bool> {
        let (krate, rest) = place.split_once('/').unwrap_or((place, ""));
        let places = self.names.get(krate)?;
        if !places.keys().any(|p| p.starts_with(rest)) {
            return None;
        }
        Some(self.has(krate, rest, name))
    }
}

// The place that follows a name: the next parenthesis or "in crates/..", before the next semicolon.
fn place(after: &str) -> Option<String> {
    let until = after.find(';').unwrap_or(after.len());
    let near = &after[..until];
    let paren = near.find('(').and_then(|i| near[i..].find(')').map(|j| (i, near[i + 1..i + j].to_string())));
    let path = near.find(" in crates/").map(|i| (i, word(&near[i + 11..]).trim_end_matches(['.', ',']).to_string()));
    let found = match (paren, path) {
        (Some(a), Some(b)) => if a.0 < b.0 { a.1 } else { b.1 },
        (Some(a), None) => a.1,
        (None, Some(b)) => b.1,
        (None, None) => return None,
    };
    let found = found.split(',').next().unwrap_or("").trim().trim_end_matches(".antt").trim_end_matches(".rt").to_string();
    if found.is_empty() || found.contains(' ') { None } else { Some(found) }
}

// What is wrong with a name, if anything.
pub fn wrong(tree: &Tree, name: &str, after: &str) -> Option<String> {
    if name.contains('/') || name.starts_with('.') {
        return if Path::new(name).exists() { None } else { Some(format!("no such file: {name}")) };
    }
    if let Some((krate, rest)) = name.split_once("::") {
        let last = rest.rsplit("::").next().unwrap_or(rest);
        return if tree.has(krate, "src", last) { None } else { Some(format!("no such function: {name}")) };
    }
    if tree.names.contains_key(name) || name.contains(' ') {
        return None;
    }
    if let Some(at) = place(after) {
        match tree.at(&at, name) {
            Some(true) => return None,
            Some(false) => return Some(format!("{name} is not in {at}")),
            None if at.contains('/') => return Some(format!("no such place: {at}")),
            None => {}
        }
    }
    if tree.has_anywhere(name) { None } else { Some(format!("no such name: {name}")) }
}

// The names between backticks of a text, each with what follows it.
pub fn quoted(text: &str) -> Vec<(&str, &str)> {
    let mut out = Vec::new();
    let mut rest = text;
    while let Some(i) = rest.find('`') {
        let Some(j) = rest[i + 1..].find('`') else { break };
        out.push((&rest[i + 1..i + 1 + j], &rest[i + j + 2..]));
        rest = &rest[i + j + 2..];
    }
    out
}
