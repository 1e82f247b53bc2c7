// Documents 01 and 02, where they are at hand, and what of a page's quotes is not theirs.
use crate::quotes::{spaced, Quote};
use std::fs;
use std::path::PathBuf;

pub struct Papers {
    scope: String,
    requests: String,
}

impl Papers {
    // In the folder that V233_PAPERS names, where they must be; else in ../shared/docs, if they are there.
    pub fn at_hand() -> Result<Option<Papers>, String> {
        let named = std::env::var_os("V233_PAPERS");
        let folder = named.clone().map_or(PathBuf::from("../shared/docs"), PathBuf::from);
        let found = ["01-scope.md", "02-change-requests.md"].map(|name| {
            let path = folder.join(name);
            fs::read_to_string(&path).map_err(|error| format!("cannot read {}: {error}", path.display()))
        });
        match found {
            [Ok(scope), Ok(requests)] => Ok(Some(Papers { scope, requests })),
            [Err(_), Err(_)] if named.is_none() => Ok(None),
            [Err(why), _] | [_, Err(why)] => Err(if named.is_some() { format!("V233_PAPERS is set, but {why}") } else { why }),
        }
    }

    // Document 01 as one line, without headings, table rules and table heads.
    fn scope_words(&self) -> String {
        let lines: Vec<&str> = self.scope.lines().collect();
        let mut out = String::new();
        for (i, line) in lines.iter().enumerate() {
            let head = lines.get(i + 1).is_some_and(|next| next.starts_with("|---"));
            if line.starts_with('#') || line.starts_with("|---") || head {
                continue;
            }
            out.push_str(&line.strip_prefix("- ").unwrap_or(line).replace('|', " "));
            out.push(' ');
        }
        spaced(&out)
    }

    // A request of document 02 as one line, from its title on: the paragraph that starts "**Card 5. ".
    fn request_words(&self, number: &str) -> Option<String> {
        let start = format!("**Card {number}. ");
        let found = self.requests.split("\n\n").find(|paragraph| paragraph.starts_with(&start))?;
        Some(spaced(&found.replace("**", "")))
    }

    // What of document 01, or of a request ("card 5"), a page's quotes do not give word by word and in order.
    pub fn uncovered(&self, of: &str, quotes: &[&Quote]) -> Vec<String> {
        let words = match of.strip_prefix("card ") {
            Some(number) => self.request_words(number),
            None => Some(self.scope_words()),
        };
        words.map_or(vec![format!("document 02 has no {of}")], |words| differences(of, &words, quotes))
    }

    // The quotes of document 01 or 02 that are not in it, each with the word from which on it is not.
    pub fn misquoted(&self, of: &str, quotes: &[&Quote]) -> Vec<String> {
        let text = spaced(if of == "document 01" { &self.scope } else { &self.requests });
        let mut bad = Vec::new();
        for quote in quotes.iter().filter(|q| !text.contains(q.text.as_str())) {
            let words: Vec<&str> = quote.text.split(' ').collect();
            let good = (0..words.len()).rev().find(|n| text.contains(&words[..*n].join(" "))).unwrap_or(0);
            bad.push(format!("{}: not in {of}, from \"{}\" on: «{}»", quote.at, words[good], quote.text));
        }
        bad
    }
}

// Where the quotes, one after the other, differ from a paper's words: by a longest sequence of words that both have.
fn differences(of: &str, paper: &str, quotes: &[&Quote]) -> Vec<String> {
    let want: Vec<&str> = paper.split(' ').collect();
    let have: Vec<(&str, &str)> = quotes.iter().flat_map(|q| q.text.split_whitespace().map(move |word| (word, q.at.as_str()))).collect();
    let mut common = vec![vec![0u32; have.len() + 1]; want.len() + 1];
    for i in (0..want.len()).rev() {
        for j in (0..have.len()).rev() {
            let longer = common[i + 1][j].max(common[i][j + 1]);
            common[i][j] = if want[i] == have[j].0 { common[i + 1][j + 1] + 1 } else { longer };
        }
    }
    let (mut i, mut j, mut bad) = (0, 0, Vec::new());
    while i < want.len() || j < have.len() {
        let (from, at) = (i, j);
        while (i < want.len() || j < have.len()) && !(i < want.len() && j < have.len() && want[i] == have[j].0) {
            if j == have.len() || (i < want.len() && common[i + 1][j] >= common[i][j + 1]) { i += 1 } else { j += 1 }
        }
        let missing = want[from..i].join(" ");
        let given = have[at..j].iter().map(|(word, _)| *word).collect::<Vec<_>>().join(" ");
        let place = have.get(if at < j { at } else { at.saturating_sub(1) }).map_or("no row", |(_, place)| place);
        match (missing.is_empty(), given.is_empty()) {
            (true, true) => {}
            (false, true) => bad.push(format!("{place}: after \"{}\" no row quotes \"{missing}\" of {of}", if at > 0 { have[at - 1].0 } else { "" })),
            (true, false) => bad.push(format!("{place}: \"{given}\" is not there in {of}")),
            (false, false) => bad.push(format!("{place}: \"{given}\" where {of} has \"{missing}\"")),
        }
        (i, j) = (i + 1, j + 1);
    }
    bad
}
