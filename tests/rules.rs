// Checks docs/RULES.md, and what the other pages say of the tree, and its layout.
//
//   rules        (run in the repository's folder)
//
// - RULES.md quotes every word of document 01, in its order and nothing else; and so for each request of document 02 that has landed, in the
//   section with its title ("## Card 5. ..", as the paper has it). A quote of document 01 or 02 in DECISIONS.md is verbatim.
// - Every row names a definition, a contract or a theorem, or says that it is no rule of behaviour.
// - Every name in a row, in an entry's "In the code" of DECISIONS.md and in ARCHITECTURE.md is in the tree: in the place given after it, or
//   anywhere if there is none; and every entry that a page cites is in DECISIONS.md.
// - Every crate has a row in ARCHITECTURE.md; every file of specs/ opens with a comment; no function has 40 lines or more, and no file of code
//   over 330.
// - The list of CRC_TABLE.md is the code's, and the examples beside it follow from it.
//
// A name stands between backticks: `crate::function`, a file's path, or a definition or law, whose place may follow: (crate/specs/File) or
// "in crates/crate/specs/File.antt".
//
// The papers come with the order for the bench. Where 01-scope.md and 02-change-requests.md are at hand, in the folder that V233_PAPERS names
// or in ../shared/docs, the quotes are compared with them word by word. With or without them the quotes are compared with their length and
// digest below.
use std::fs;
use std::path::Path;

#[path = "rules/crc_table.rs"]
mod crc_table;
#[path = "rules/layout.rs"]
mod layout;
#[path = "rules/papers.rs"]
mod papers;
#[path = "rules/quotes.rs"]
mod quotes;
#[path = "rules/sha256.rs"]
mod sha256;
#[path = "rules/tree.rs"]
mod tree;

use papers::Papers;
use quotes::{of_decisions, of_rules, spaced, unread, Quote};
use tree::{quoted, tree, wrong, Tree};

const RULES: &str = "docs/RULES.md";
const DECISIONS: &str = "docs/DECISIONS.md";
const ARCHITECTURE: &str = "docs/ARCHITECTURE.md";

// What each page quotes: the page, the text quoted, its length in bytes (UTF-8) and its SHA-256, as `printf '%s' "the words" | sha256sum` gives
// it. A landed request is a line (RULES, "card 5", ..). After a change of quotes the test prints the new line, which is to be recorded only when
// the papers are at hand and the test finds nothing else wrong.
// - RULES: the words of the quotes, one space between any two. So they are the paper's own words without headings, table heads and rules, bars,
//   and the dashes of lists:
//     printf '%s' "$(grep -Ev '^(#|\|---|\| Number )' 01-scope.md | sed 's/^- //; s/|/ /g' | tr -s ' \n' ' ' | sed 's/^ //; s/ $//')" | sha256sum
// - DECISIONS: the quotes of the document, one in a line, with no line break after the last.
const RECORDED: &[(&str, &str, usize, &str)] = &[
    (RULES, "document 01", 12836, "fbe055717a213fa1f2da2d30af2a07d97468556963ed01d9a36c4ea7241166e6"),
    (RULES, "card 1", 1096, "cb67ec1f20e0ef75abf3acd962853cf5ae815772bf67221802b1f90b0cc82c4e"),
    (RULES, "card 2", 578, "a2db8f172be354d06e8417114973b58e127b28f137c6d03222f5c86e477c6930"),
    (RULES, "card 3", 387, "9efba1c5c4f30da75ed0aa8e571a164f74016aa098153631a7c7bb34f2a8e345"),
    (RULES, "card 4", 1041, "d3df248576275e65ce8feac796f94d0427458e15a884c59fbc5c8dd5c96cf8a7"),
    (RULES, "card 5", 345, "ab694e216b2fd6b92f0f938b8a8f899bbc852fea7d7bf7b0216b4a8d0673b882"),
    (RULES, "card 6", 554, "84165e231def2525be3eb65caf5f920939e1fc4a7aa66f7de94dbfc3bf0935b3"),
    (RULES, "card 7", 625, "d6f5a8d7cfe11f20afd30e2aa335dbbaab455d4125cc10f055a058b3c70a26be"),
    (RULES, "card 8", 637, "9eddcaf48318cc459ea961e5a83fec57648c4f0074605d73e58e549dd5155706"),
    (RULES, "card 9", 1207, "916a838963edc8ad8652c4581aa7ba04caec9050125ec9b207442eafdfc3ff77"),
    (RULES, "card 10", 716, "6e770c7d8cb84c1f41b1bd6ebe84f7f30a8fa4874390476a9acaf43ce10e0c72"),
    (DECISIONS, "document 01", 9876, "7e5b8dd9ab9a82c8aac132f87c08e1a65eb704967ac3ad142625e4779c9a00f9"),
    (DECISIONS, "document 02", 5531, "ea418f037fddc1361c19ca89bfd64666b46a60881ff150d95760cad7657fa1d6"),
];

// The entries of DECISIONS.md that a page cites: "entry D1", "Entry D1", "entries D1 (..) and D2", "entries D1 to D2".
fn cited(text: &str) -> Vec<String> {
    let number = |t: &str| t.chars().take_while(char::is_ascii_digit).collect::<String>();
    let mut out: Vec<String> = text.split("ntry D").skip(1).map(number).collect();
    for list in text.split("ntries D").skip(1) {
        out.extend(list.split('.').next().unwrap_or("").split(&[' ', '('][..]).filter_map(|w| w.strip_prefix('D').or(Some(w))).map(number));
    }
    out.retain(|n| !n.is_empty());
    out
}

// Whether a text between backticks is a name, and not a folder, an ending, a command or a place to be filled in.
fn is_name(text: &str) -> bool {
    !text.ends_with('/') && !text.starts_with('.') && !text.contains(".X") && !text.contains(&['(', ' '][..]) && text != "use"
}

// A row must name something that is there, or say why it has nothing.
fn row_is_bare(cells: &[&str]) -> bool {
    let rest = cells[2..].join(" ");
    quoted(&rest).is_empty() && !["none;", "with its request", "DECISIONS.md", "rows ", "tests/"].iter().any(|w| rest.contains(w))
}

fn read(path: &str) -> String {
    fs::read_to_string(path).unwrap_or_default()
}

struct Check {
    tree: Tree,
    rows: usize,
    names: usize,
    bad: Vec<String>,
}

impl Check {
    fn say(&mut self, page: &str, wrongs: Vec<String>) {
        self.bad.extend(wrongs.into_iter().map(|w| format!("{page}: {w}")));
    }

    // The names between backticks of a text.
    fn names(&mut self, title: &str, text: &str) {
        let found = quoted(text);
        self.names += found.len();
        let wrongs = found.into_iter().filter_map(|(name, after)| wrong(&self.tree, name, after)).collect();
        self.say(title, wrongs);
    }

    fn rules(&mut self) {
        for line in read(RULES).lines().filter(|l| l.starts_with("| ") && !l.starts_with("| No.")) {
            let cells: Vec<&str> = line.trim_matches('|').split(" | ").map(str::trim).collect();
            self.rows += 1;
            let title = format!("{RULES} {}", cells[0]);
            if cells.len() != 4 || row_is_bare(&cells) {
                self.say(&title, vec!["a row without a name".to_string()]);
            } else {
                self.names(&title, &cells[2]);
                self.names(&title, &cells[3]);
            }
        }
    }

    fn decisions(&mut self) {
        let text = read(DECISIONS);
        let mut entry = "";
        for line in text.lines() {
            if let Some(head) = line.strip_prefix("### ") {
                entry = head.split('.').next().unwrap_or(head);
            }
            if let Some(code) = line.strip_prefix("- **In the code.** ") {
                self.names(&format!("{DECISIONS} {entry}"), code);
            }
        }
    }

    fn architecture(&mut self) {
        let (text, crates) = (read(ARCHITECTURE), read("crates.txt"));
        for (name, _) in text.split("```").step_by(2).flat_map(quoted).filter(|(name, _)| is_name(name)) {
            self.names += 1;
            let kit = crates.lines().any(|l| l.split(' ').any(|w| w == name));
            if !kit && !Path::new(name).exists() {
                let wrongs = wrong(&self.tree, name, "").into_iter().collect();
                self.say(ARCHITECTURE, wrongs);
            }
        }
    }

    fn entries(&mut self) {
        let decisions = read(DECISIONS);
        for page in [RULES, ARCHITECTURE, "README.md"] {
            let gone = |n: &String| !decisions.contains(&format!("### D{n}."));
            let wrongs = cited(&read(page)).into_iter().filter(gone).map(|n| format!("no entry D{n}")).collect();
            self.say(page, wrongs);
        }
    }

    // The quotes of a text against the paper, where it is at hand, and against what is recorded.
    fn quotes(&mut self, papers: &Option<Papers>, page: &str, of: &str, quotes: &[&Quote]) {
        let wrongs = match papers {
            Some(papers) if page == RULES => papers.uncovered(of, quotes),
            Some(papers) => papers.misquoted(of, quotes),
            None => Vec::new(),
        };
        let lines = quotes.iter().map(|q| q.text.as_str()).collect::<Vec<_>>().join("\n");
        let (name, words) = if page == RULES { ("RULES", spaced(&lines)) } else { ("DECISIONS", lines) };
        let now = (page, of, words.len(), &*sha256::sha256(&words));
        let line = format!("({name}, {of:?}, {}, {:?}),", now.2, now.3);
        let advice = match papers {
            Some(_) if wrongs.is_empty() => format!("They are the paper's own: if nothing else is wrong, record {line}"),
            Some(_) => "Nor are they the paper's: see above.".to_string(),
            None => format!("Only after a run with the papers at hand that finds nothing else wrong, record {line}"),
        };
        self.say(page, wrongs);
        if !RECORDED.contains(&now) {
            self.say(page, vec![format!("its quotes of {of} are not those recorded in tests/rules.rs. {advice}")]);
        }
    }

    // Every text that a page quotes, or that is recorded for it. Document 000 is not compared.
    fn papers(&mut self, papers: &Option<Papers>) {
        for (page, quotes) in [(RULES, of_rules(&read(RULES))), (DECISIONS, of_decisions(&read(DECISIONS)))] {
            self.say(page, unread(&read(page), &quotes));
            let mut texts: Vec<&str> = RECORDED.iter().filter(|line| line.0 == page).map(|line| line.1).collect();
            texts.extend(quotes.iter().map(|q| q.of.as_str()));
            texts.sort();
            texts.dedup();
            for of in texts {
                let own: Vec<&Quote> = quotes.iter().filter(|q| q.of == of).collect();
                if of == "document 01" || of == "document 02" || of.starts_with("card ") {
                    self.quotes(papers, page, of, &own);
                } else if of != "document 000" {
                    self.say(page, own.iter().map(|q| format!("{}: a quote of {of}: «{}»", q.at, q.text)).collect());
                }
            }
        }
    }
}

fn main() {
    let mut check = Check { tree: tree(), rows: 0, names: 0, bad: layout::layout() };
    check.bad.extend(crc_table::wrong());
    check.rules();
    check.decisions();
    check.architecture();
    check.entries();
    if !sha256::is_right() {
        check.bad.push("tests/rules/sha256.rs does not give the digests of its standard".to_string());
    }
    let papers = Papers::at_hand().unwrap_or_else(|why| {
        check.bad.push(why);
        None
    });
    check.papers(&papers);
    let Check { rows, names, mut bad, .. } = check;
    if rows < 100 || names < 300 {
        bad.push(format!("only {rows} rows and {names} names were found: the pages are not in the form that this reads"));
    }
    for line in &bad {
        println!("{line}");
    }
    let how = if papers.is_some() { "the papers were compared" } else { "the papers are not at hand: compared by digest" };
    println!("rules: {rows} rows, {names} names, {} wrong; {how}", bad.len());
    std::process::exit(if bad.is_empty() { 0 } else { 1 });
}
