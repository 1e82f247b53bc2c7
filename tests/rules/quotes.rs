// The quotes of RULES.md and DECISIONS.md, each with the text that it is of.

pub struct Quote {
    pub at: String, // the row or entry that has it
    pub of: String, // "document 01", or "card 5" of document 02
    pub text: String,
}

pub fn spaced(text: &str) -> String {
    text.split_whitespace().collect::<Vec<_>>().join(" ")
}

// The texts between guillemets, each with what stands between the quote before it and itself.
fn guillemets(text: &str) -> Vec<(&str, String)> {
    let mut out = Vec::new();
    let mut rest = text;
    while let Some((before, (quote, after))) = rest.split_once('«').and_then(|(b, t)| Some((b, t.split_once('»')?))) {
        out.push((before, spaced(quote)));
        rest = after;
    }
    out
}

// What stands after "Card " in a heading, up to the point: the number of a request of document 02.
fn card(heading: &str) -> Option<&str> {
    heading.strip_prefix("## Card ")?.split('.').next()
}

// What a page has between guillemets and was not read, as it stands at another place or in more than one line.
pub fn unread(page: &str, quotes: &[Quote]) -> Vec<String> {
    let read = quotes.iter().filter(|q| !q.at.starts_with("## ")).count();
    let (open, close) = (page.matches('«').count(), page.matches('»').count());
    if (read, read) == (open, close) { return Vec::new() }
    vec![format!("{open} « and {close} », but {read} quotes in the form that this reads: each in one line, in RULES.md in the second column")]
}

// RULES.md quotes document 01 row by row, in the second column; the section of a landed request ("## Card 5. ..") quotes that request, and its
// heading is the request's title.
pub fn of_rules(page: &str) -> Vec<Quote> {
    let mut out = Vec::new();
    let mut of = "document 01".to_string();
    for line in page.lines() {
        if line.starts_with("## ") {
            of = card(line).map_or("document 01".to_string(), |number| format!("card {number}"));
            if card(line).is_some() {
                out.push(Quote { at: line.to_string(), of: of.clone(), text: spaced(&line[3..]) });
            }
        }
        let cells: Vec<&str> = line.split(" | ").collect();
        if let [number, rule, ..] = cells[..] {
            let at = number.trim_start_matches("| ");
            out.extend(guillemets(rule).into_iter().map(|(_, text)| Quote { at: at.to_string(), of: of.clone(), text }));
        }
    }
    out
}

// DECISIONS.md names a quote's document before it, in its line ("document 01: «..»") or at the head of its column ("Document 02").
pub fn of_decisions(page: &str) -> Vec<Quote> {
    let (mut out, mut heads, mut entry) = (Vec::new(), Vec::new(), "the page's head");
    let lines: Vec<&str> = page.lines().collect();
    for (i, line) in lines.iter().enumerate() {
        if let Some(heading) = line.strip_prefix("### ") {
            entry = heading.split('.').next().unwrap_or(heading);
        }
        let cells: Vec<&str> = line.trim_matches('|').split(" | ").collect();
        if lines.get(i + 1).is_some_and(|next| next.starts_with("|---")) {
            heads = cells;
        } else if line.starts_with("| ") {
            let columns = cells.iter().zip(&heads);
            out.extend(columns.flat_map(|(cell, head)| of_line(cells[0].trim(), &format!("{head}: {cell}"))));
        } else {
            out.extend(of_line(entry, line));
        }
    }
    out
}

fn of_line(at: &str, line: &str) -> Vec<Quote> {
    let mut of = "no document".to_string();
    let mut out = Vec::new();
    for (before, text) in guillemets(line) {
        if let Some((_, named)) = before.rsplit_once("ocument ") {
            of = format!("document {}", named.chars().take_while(char::is_ascii_digit).collect::<String>());
        }
        out.push(Quote { at: at.to_string(), of: of.clone(), text });
    }
    out
}
