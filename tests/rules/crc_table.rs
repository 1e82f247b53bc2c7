// docs/CRC_TABLE.md: its list is that of the code, entry by entry, and each of its examples is worked out again from the list.
use std::fs;

const PAGE: &str = "docs/CRC_TABLE.md";
const CODE: &str = "crates/frame/src/remainder_table.rt";

// Two hexadecimal digits.
fn byte(text: &str) -> Option<u8> {
    let is_byte = text.len() == 2 && text.chars().all(|c| c.is_ascii_hexdigit());
    if is_byte { u8::from_str_radix(text, 16).ok() } else { None }
}

// The code's list: all that stands between the brackets, remarks apart.
fn of_code(text: &str) -> Option<Vec<u8>> {
    let (_, list) = text.split_once("const REMAINDERS: [u8; 256] = [")?;
    let (list, _) = list.split_once("];")?;
    let bare: String = list.lines().map(|l| l.split("//").next().unwrap_or("")).collect();
    bare.split(',').map(str::trim).filter(|e| !e.is_empty()).map(|e| byte(e.strip_prefix("0x")?)).collect()
}

// The rows of a table under this head, each as the text of its first cell and the bytes in the others.
fn rows<'a>(table: &'a str, head: &str) -> Option<Vec<(&'a str, Vec<u8>)>> {
    let mut lines = table.lines();
    let columns = head.matches('|').count() - 1;
    if lines.next() != Some(head) || lines.next() != Some(&format!("|{}", "---|".repeat(columns))) {
        return None;
    }
    let row = |line: &'a str| {
        let cells: Vec<&str> = line.strip_prefix("| ")?.strip_suffix(" |")?.split(" | ").collect();
        let bytes: Option<Vec<u8>> = cells[1..].iter().map(|e| byte(e)).collect();
        bytes.filter(|b| b.len() == columns - 1).map(|b| (cells[0], b))
    };
    lines.map(row).collect()
}

// The page's list: 16 rows of 16, rows and columns marked with the digits of the byte.
fn of_page(table: &str) -> Option<Vec<u8>> {
    let digits: Vec<String> = (0..16).map(|n| format!("{n:X}")).collect();
    let rows = rows(table, &format!("| | {} |", digits.join(" | ")))?;
    let is_marked = rows.iter().map(|r| r.0.to_string()).eq(digits.iter().map(|d| format!("**{d}**")));
    if is_marked { Some(rows.into_iter().flat_map(|r| r.1).collect()) } else { None }
}

// An example: a table of a frame's bytes, in the order in which they come in, with the words before it and after it.
fn is_right(table: &str, before: &str, after: &str, list: &[u8]) -> bool {
    let Some(rows) = rows(table, "| Byte | its value | remainder before | exclusive or | remainder after, from the list |") else {
        return false;
    };
    let mut remainder = 0;
    let mut middle = 0u64;
    for (_, row) in &rows {
        let index = remainder ^ row[0];
        if row[1..] != [remainder, index, list[index as usize]] {
            return false;
        }
        remainder = list[index as usize];
        middle = middle << 8 | row[0] as u64;
    }
    let (id, data, auxiliary) = (middle >> 24, middle >> 8 & 0xFFFF, middle & 0xFF);
    let frame = middle << 10 | (remainder as u64) << 2 | 3;
    rows.iter().map(|r| r.0).eq(["Frame ID", "data, high byte", "data, low byte", "auxiliary"])
        && before.starts_with(&format!("Frame ID {id:02X}h, data {data:04X}h, auxiliary {auxiliary:02X}h"))
        && after == format!("So the CRC is {remainder:02X}h, and the frame, middle bits × 2^10 + CRC × 4 + 3, is {frame:011X}h.")
}

// What is wrong with the page: its first table is the list, every other one an example.
pub fn wrong() -> Vec<String> {
    let Some(list) = of_code(&fs::read_to_string(CODE).unwrap_or_default()).filter(|l| l.len() == 256) else {
        return vec![format!("{CODE}: no list of 256 bytes")];
    };
    let text = fs::read_to_string(PAGE).unwrap_or_default();
    let parts: Vec<&str> = text.trim_end().split("\n\n").collect();
    let tables: Vec<usize> = (0..parts.len()).filter(|k| parts[*k].starts_with('|')).collect();
    let Some(page) = tables.first().and_then(|k| of_page(parts[*k])) else {
        return vec![format!("{PAGE}: its first table is no list of 16 rows of 16 bytes")];
    };
    let differs = |b: &usize| page[*b] != list[*b];
    let mut bad: Vec<String> = (0..256).filter(differs).map(|b| format!("{PAGE}: {b:02X} has {:02X}, in the code {:02X}", page[b], list[b])).collect();
    if tables.len() < 2 {
        bad.push(format!("{PAGE}: no example"));
    }
    let read: usize = tables.iter().map(|k| parts[*k].lines().count()).sum();
    if read != text.lines().filter(|l| l.contains('|')).count() {
        bad.push(format!("{PAGE}: a table is not read: one empty line before it, and a bar at the start of each row"));
    }
    let near = |k: usize| parts.get(k).copied().unwrap_or("");
    let is_wrong = |k: &&usize| !is_right(parts[**k], near(**k - 1), near(**k + 1), &list);
    bad.extend(tables[1..].iter().filter(is_wrong).map(|k| format!("{PAGE}: an example is wrong: {}", near(k - 1))));
    bad
}
