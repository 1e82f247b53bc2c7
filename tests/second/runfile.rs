//! The run file of document 01: `run`, `trace` and `why`.

use crate::answer::{answer, ticks, Answer};
use crate::board::{Board, Setpoint};
use crate::last_tick::rows::Came;
use crate::last_tick::watch::{Before, Watch};
use crate::role::{Access, Role::Examiner};
use crate::script::last_tick::of_write;
use std::fmt::Write;

const N: u32 = 16;
const M: u32 = 64;

/// A 32-bit little-endian number.
pub fn number(bytes: &[u8], at: usize) -> u32 {
    u32::from_le_bytes([bytes[at], bytes[at + 1], bytes[at + 2], bytes[at + 3]])
}

/// "any preamble, 8-byte records, then a trailer of two 32-bit little-endian numbers: distance
/// back from the file's end to the first record, and record count. A longer file, one under
/// 8 bytes, or a distance other than 8 × count + 8 or past the file's length, is 8."
pub fn records(file: &[u8]) -> Result<&[u8], u8> {
    if file.len() > 65_536 || file.len() < 8 {
        return Err(8);
    }
    let end = file.len() - 8;
    let (distance, count) = (number(file, end) as u64, number(file, end + 4) as u64);
    if distance != 8 * count + 8 || distance > file.len() as u64 {
        return Err(8);
    }
    Ok(&file[file.len() - distance as usize..end])
}

/// "N is 16, M is 64, memory zeroed."
pub struct Bench {
    pub board: Board,
    setpoints: Vec<u32>,
    readbacks: Vec<u32>,
}

impl Bench {
    pub fn new() -> Bench {
        let (setpoints, readbacks) = (vec![0; 64 * N as usize], vec![0; 8 * M as usize]);
        let (board, opened) = Board::open(N, M, setpoints.len(), readbacks.len(), Access::NONE);
        assert_eq!(opened, Ok(()));
        Bench { board, setpoints, readbacks }
    }

    /// "A record: byte kind, byte channel, 16-bit a, 32-bit b, little-endian." 9 is judged on
    /// the record alone, before all else. Document 02, request 9: "a run file's calls are the examiner's".
    pub fn step(&mut self, record: &[u8]) -> Answer {
        let (kind, channel) = (record[0], record[1] as u32);
        let a = u16::from_le_bytes([record[2], record[3]]) as u32;
        let b = number(record, 4);
        let in_range = match kind {
            1 => b <= 65_535,
            3 => a <= 255,
            4 => b <= 255,
            5 => (1..=10_000).contains(&b),
            8 => b <= 1,
            2 | 6 | 7 => true,
            _ => false,
        };
        if !in_range {
            return Answer::Refused(9);
        }
        let (board, readbacks) = (&mut self.board, &mut self.readbacks);
        match kind {
            1 => answer(board.write(Examiner, a, b as u16, readbacks), |_| Answer::Ok),
            2 => answer(board.read(Examiner, a), Answer::Value),
            // "a = 32 × (user − 1) + 16 × (buffer − 1) + index"
            3 => {
                let asked = Setpoint { c: channel, user: a / 32 + 1, buffer: a / 16 % 2 + 1, index: a % 16, word: b };
                answer(board.set(Examiner, asked, &mut self.setpoints), |_| Answer::Ok)
            }
            4 => answer(board.event(Examiner, b as u8, readbacks), |_| Answer::Ok),
            5 => ticks(board, Examiner, &self.setpoints, b),
            6 => answer(board.reply(Examiner, channel, (a as u64) << 32 | b as u64, readbacks), Answer::Reply),
            7 => answer(board.change_user(Examiner, b), |_| Answer::Ok),
            _ if b == 1 => answer(board.arm(Examiner, channel), |_| Answer::Ok),
            _ => answer(board.disarm(Examiner, channel), |_| Answer::Ok),
        }
    }
}

/// What a run counts: "records, refusals and frames of channels 1–4".
#[derive(Default)]
struct Counts {
    steps: u64,
    refused: u64,
    frames: [u64; 4],
}

impl Counts {
    fn count(&mut self, answer: &Answer) {
        self.steps += 1;
        match answer {
            Answer::Refused(_) => self.refused += 1,
            Answer::Ticks(sent) => sent.iter().for_each(|s| self.frames[s.1 - 1] += 1),
            _ => {}
        }
    }

    /// "prints records, refusals and frames of channels 1–4 in one line"
    fn line(&self) -> String {
        let [f1, f2, f3, f4] = self.frames;
        format!("steps {} refused {} frames {f1} {f2} {f3} {f4}\n", self.steps, self.refused)
    }
}

/// The log line alone: no answer is kept, and none is written out.
pub fn line(file: &[u8]) -> String {
    let Ok(records) = records(file) else { return "file 8\n".into() };
    let (mut bench, mut counts) = (Bench::new(), Counts::default());
    for record in records.chunks(8) {
        counts.count(&bench.step(record));
    }
    counts.line()
}

/// What the last tick of a file did, of each channel (document 02, request 10).
fn last_ticks(board: &Board) -> String {
    let mut text = String::new();
    for c in 1..=4 {
        let [words, sentence] = board.last_tick(Examiner, c).unwrap().told();
        writeln!(text, "channel {c}: {words}. {sentence}").unwrap();
    }
    text
}

/// A record as the tally of last ticks sees it.
fn came(record: &[u8]) -> Came {
    let (a, b) = (number(record, 0) >> 16, number(record, 4));
    match record[0] {
        1 => of_write(a, b),
        4 => Came::Event,
        5 => Came::Ticks(b),
        7 => Came::User,
        8 if b == 1 => Came::Arm,
        8 => Came::Disarm,
        _ => Came::Other,
    }
}

/// What `why` prints of a file.
pub fn why(file: &[u8]) -> String {
    let Ok(records) = records(file) else { return "file 8\n".into() };
    let mut bench = Bench::new();
    for record in records.chunks(8) {
        bench.step(record);
    }
    last_ticks(&bench.board)
}

/// The log line and the trace of a file, what `why` says to it, and the bench after it.
pub struct Told {
    pub line: String,
    pub trace: String,
    pub why: String,
    pub answers: Vec<Answer>,
    pub bench: Bench,
    /// What `why` shows of last ticks.
    pub watch: Watch,
}

pub fn tell(file: &[u8]) -> Told {
    let mut bench = Bench::new();
    let Ok(records) = records(file) else {
        let [line, trace, why] = ["file 8\n"; 3].map(String::from);
        return Told { line, trace, why, answers: vec![Answer::Refused(8)], bench, watch: Watch::default() };
    };
    let (mut trace, mut answers, mut counts) = (String::new(), Vec::new(), Counts::default());
    let mut watch = Watch::default();
    for (k, record) in records.chunks(8).enumerate() {
        let before = Before::new(&bench.board);
        let a = bench.step(record);
        watch.step(came(record), &a, before, &bench.board);
        writeln!(trace, "{} {a}", k + 1).unwrap();
        counts.count(&a);
        answers.push(a);
    }
    bench.board.tally_tag_end(&bench.readbacks);
    trace.push_str("end");
    for (i, w) in bench.readbacks.iter().enumerate().filter(|(_, w)| **w != 0) {
        write!(trace, " {i}={w:08X}").unwrap();
    }
    for c in 0..4 {
        write!(trace, " r{}", bench.board.retired_count(c)).unwrap();
    }
    trace.push('\n');
    let why = last_ticks(&bench.board);
    watch.end(&bench.board);
    Told { line: counts.line(), trace, why, answers, bench, watch }
}
