// The layout of the crates: a row of ARCHITECTURE.md for each, and how long functions and files may be.
use crate::tree::{files, word};
use std::fs;
use std::path::Path;

// The functions of a file of code that have 40 lines or more.
fn long_functions(text: &str) -> Vec<String> {
    let lines: Vec<&str> = text.lines().collect();
    let mut long = Vec::new();
    for (i, line) in lines.iter().enumerate() {
        let start = line.trim_start();
        let head = start.strip_prefix("pub ").unwrap_or(start);
        if let Some(rest) = head.strip_prefix("fn ") {
            let close = format!("{}}}", &line[..line.len() - start.len()]);
            let size = lines[i..].iter().position(|l| *l == close).map_or(0, |n| n + 1);
            if size >= 40 {
                long.push(format!("{} has {size} lines", word(rest)));
            }
        }
    }
    long
}

// What is wrong with the layout of the crates.
pub fn layout() -> Vec<String> {
    let mut bad = Vec::new();
    let page = fs::read_to_string("docs/ARCHITECTURE.md").unwrap_or_default();
    let table: String = page.lines().filter(|l| l.starts_with("| `")).filter_map(|l| l.split(" | ").next()).collect();
    for line in fs::read_to_string("crates.txt").unwrap_or_default().lines() {
        let name = line.split(':').next().unwrap_or("");
        if !name.is_empty() && !table.contains(&format!("`{name}`")) {
            bad.push(format!("ARCHITECTURE.md: no row for the crate {name}"));
        }
    }
    let mut all = Vec::new();
    files(Path::new("crates"), &mut all);
    for path in all {
        let text = fs::read_to_string(&path).unwrap_or_default();
        let shown = path.display();
        if shown.to_string().contains("/specs/") && !path.ends_with("Lib.antt") && !text.starts_with("-- ") {
            bad.push(format!("{shown} does not open with a comment"));
        }
        if path.extension().is_some_and(|e| e == "rt") {
            bad.extend(long_functions(&text).into_iter().map(|w| format!("{shown}: {w}")));
            // an attribute for the proof is no line of code
            let lines = text.lines().filter(|l| !l.trim_start().starts_with("#[tactic(")).count();
            if lines > 330 {
                bad.push(format!("{shown} has {lines} lines"));
            }
        }
    }
    bad
}
