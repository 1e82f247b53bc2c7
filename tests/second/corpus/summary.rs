//! What this program says to the files of a corpus, and what they reach.

use super::entries::Entries;
use crate::answer::Answer;
use crate::last_tick::rows::{wanted_of_run_files, wanted_of_scripts, Counts as LastTicks, Row};
use crate::map::{readable, writable};
use crate::script::roles::{wanted, Counts, Registers, Roles};
use crate::tally::{Tally, DID};
use crate::{runfile, script};
use std::fs;
use std::path::{Path, PathBuf};

/// The files of a directory, in order.
fn files(dir: &Path) -> std::io::Result<Vec<PathBuf>> {
    let mut paths: Vec<_> = fs::read_dir(dir)?.filter_map(|e| e.ok().map(|e| e.path())).collect();
    paths.sort();
    Ok(paths)
}

fn ending(path: &Path) -> &str {
    path.extension().and_then(|e| e.to_str()).unwrap_or("")
}

/// Beside each run file its log line, its trace and what `why` says, beside each script its answers.
pub fn answers(dir: &Path) -> std::io::Result<()> {
    for path in files(dir)? {
        match ending(&path) {
            "run" => {
                let told = runfile::tell(&fs::read(&path)?);
                fs::write(path.with_extension("run.line"), told.line)?;
                fs::write(path.with_extension("run.trace"), told.trace)?;
                fs::write(path.with_extension("run.why"), told.why)?;
            }
            "calls" => fs::write(path.with_extension("calls.text"), script::tell(&fs::read(&path)?).text)?,
            _ => {}
        }
    }
    Ok(())
}

/// What the files of one kind reach.
struct Reach {
    files: u64,
    answers: u64,
    frames: u64,
    /// Files with a frame.
    sending: u64,
    /// By number.
    refused: [u64; 14],
    did: Tally,
    roles: Counts,
    registers: Registers,
    last_ticks: LastTicks,
    /// Of the list of remainders, by frames without auxiliary bits and with them.
    entries: [Entries; 2],
}

impl Reach {
    fn new() -> Reach {
        Reach {
            files: 0,
            answers: 0,
            frames: 0,
            sending: 0,
            refused: [0; 14],
            did: Tally::new(),
            roles: Counts::new(),
            registers: Registers::default(),
            last_ticks: LastTicks::new(),
            entries: [Entries::new(), Entries::new()],
        }
    }
    fn add(&mut self, answers: &[Answer]) {
        self.files += 1;
        self.answers += answers.len() as u64;
        let before = self.frames;
        for a in answers {
            match a {
                Answer::Refused(n) => self.refused[*n as usize] += 1,
                Answer::Ticks(sent) => {
                    self.frames += sent.len() as u64;
                    sent.iter().for_each(|&(_, _, frame)| self.look_up((frame >> 10) as u32));
                }
                _ => {}
            }
        }
        self.sending += (self.frames > before) as u64;
    }
    /// What a script reaches of roles.
    fn add_roles(&mut self, roles: &Roles) {
        roles.counts.iter().for_each(|(row, count)| *self.roles.entry(*row).or_default() += count);
        self.registers.join(&roles.registers);
    }
    /// What a file reaches of last ticks.
    fn add_last_ticks(&mut self, counts: &LastTicks) {
        counts.iter().for_each(|(row, count)| *self.last_ticks.entry(*row).or_default() += count);
    }
    /// A frame of these 32 middle bits.
    fn look_up(&mut self, middle: u32) {
        let has_auxiliary = middle & 0xFF != 0;
        self.entries[has_auxiliary as usize].look_up(middle);
    }
}

/// Prints the refusals, and answers those that are not reached: no run file is lent wrong lengths, asks for a ramp or a
/// download, or names a role, and a script has no trailer and no range of a record's numbers.
fn refusals(runs: &Reach, calls: &Reach) -> Vec<String> {
    let mut missing = Vec::new();
    for n in 1..=13 {
        println!("refused {n}: {} in run files, {} in scripts", runs.refused[n], calls.refused[n]);
        let (is_of_runs, is_of_scripts) = (![1, 11, 12, 13].contains(&n), n != 8 && n != 9);
        if (is_of_runs && runs.refused[n] == 0) || (is_of_scripts && calls.refused[n] == 0) {
            missing.push(format!("refused {n}"));
        }
    }
    missing
}

/// What no run file does: its one board is opened once, of depth M 64, no call of it is lent a wrong length, and none
/// shows a retired part.
const OF_SCRIPTS: [&str; 22] = [
    "missing_cleared_by_opening", "end_word_of_closed_board",
    "end_word_of_depth_1_reply_lost", "end_word_of_depth_1_sixth_lost", "end_word_of_depth_1_after_lost",
    "end_word_of_depth_1_command_reply", "end_word_of_depth_1_part", "end_word_of_depth_2_in_last_place",
    "end_word_part_of_full_buffer", "end_word_part_empty_after_reset", "end_word_in_part",
    "tag_event_refused", "tag_command_refused", "tag_dropped_by_opening",
    "tag_kept_over_refused_drop_by_event", "tag_kept_over_refused_drop_by_command", "tag_kept_over_refused_drop_by_reset",
    "tag_in_part", "tag_word_like_end_word_in_part", "tag_words_like_end_word_in_part",
    "tag_word_like_end_word_begins_part", "tag_word_like_end_word_ends_part",
];

/// Prints what was done, and answers what was not. What a request adds to the board (command frames, missing readbacks,
/// the end word, tags) is asked of both kinds of files, which different programs read; ramps, readings in volts and
/// downloads, which no run file asks for, are of scripts alone.
fn done(runs: &Reach, calls: &Reach) -> Vec<String> {
    let mut missing = Vec::new();
    for ((name, in_runs), in_calls) in DID.iter().zip(&runs.did.counts).zip(&calls.did.counts) {
        let is_of_a_request = ["command", "missing", "end_word", "tag"].iter().any(|request| name.starts_with(request));
        let is_asked_of_both = is_of_a_request && !OF_SCRIPTS.contains(name);
        println!("{name} {in_runs} in run files, {in_calls} in scripts");
        if in_runs + in_calls == 0 || (is_asked_of_both && in_runs * in_calls == 0) {
            missing.push(name.to_string());
        }
    }
    missing
}

/// Prints how many entries of the list of remainders are looked up at each byte, and answers where it is not all of them.
fn remainders(runs: &Reach, calls: &Reach) -> Vec<String> {
    let mut missing = Vec::new();
    let of_replies = |replies: &[u32]| {
        let mut entries = Entries::new();
        replies.iter().for_each(|&middle| entries.look_up(middle));
        entries.reached()
    };
    for (name, in_runs, in_calls) in [
        ("frames without auxiliary bits", runs.entries[0].reached(), calls.entries[0].reached()),
        ("frames with auxiliary bits", runs.entries[1].reached(), calls.entries[1].reached()),
        ("replies told right", of_replies(&runs.did.crc_right), of_replies(&calls.did.crc_right)),
        ("replies told wrong", of_replies(&runs.did.crc_wrong), of_replies(&calls.did.crc_wrong)),
    ] {
        println!("remainders of {name}: {in_runs:?} in run files, {in_calls:?} in scripts");
        if [in_runs, in_calls] != [[256; 4]; 2] {
            missing.push(format!("remainders of {name}"));
        }
    }
    missing
}

/// Prints what scripts reach of roles, and answers what they do not.
fn roles(calls: &Reach) -> Vec<String> {
    let mut missing = Vec::new();
    for row in wanted() {
        let count = calls.roles.get(&row).copied().unwrap_or(0);
        println!("roles {row:X?} {count} in scripts");
        if count == 0 {
            missing.push(format!("roles {row:X?}"));
        }
    }
    let Registers { read, written, not_read, not_written } = &calls.registers;
    let (all_read, all_written) = (readable(), writable());
    // "reading 02, 04 or 0C needs both": none of them is read with the read permission alone
    let read_alone: Vec<u32> = all_read.iter().copied().filter(|offset| ![0x02, 0x04, 0x0C].contains(offset)).collect();
    for (name, reached, all) in [
        ("read with that permission alone", read, read_alone),
        ("written with that permission alone", written, all_written.clone()),
        ("not read with all permissions but that", not_read, all_read),
        ("not written with all permissions but that", not_written, all_written),
    ] {
        let count = all.iter().filter(|offset| reached.contains(offset)).count();
        println!("registers {name}: {count} of {}", all.len());
        if count < all.len() {
            missing.push(format!("registers {name}"));
        }
    }
    missing
}

/// Prints what files of one kind reach of last ticks, and answers what they do not.
fn last_ticks(reach: &Reach, files: &str, wanted: Vec<Row>) -> Vec<String> {
    let mut missing = Vec::new();
    for row in wanted {
        let count = reach.last_ticks.get(&row).copied().unwrap_or(0);
        println!("last tick {row:?} {count} in {files}");
        if count == 0 {
            missing.push(format!("last tick {row:?} in {files}"));
        }
    }
    missing
}

/// What the files of a directory reach; false if something is not reached at all.
pub fn summary(dir: &Path) -> std::io::Result<bool> {
    let (mut runs, mut calls) = (Reach::new(), Reach::new());
    for path in files(dir)? {
        match ending(&path) {
            "run" => {
                let told = runfile::tell(&fs::read(&path)?);
                runs.add(&told.answers);
                runs.did.join(&told.bench.board.tally);
                runs.add_last_ticks(&told.watch.counts);
            }
            "calls" => {
                let told = script::tell(&fs::read(&path)?);
                calls.add(&told.answers);
                if let Some((bench, roles, watch)) = told.end {
                    calls.did.join(&bench.board.tally);
                    calls.add_roles(&roles);
                    calls.add_last_ticks(&watch.counts);
                }
            }
            _ => {}
        }
    }
    let (answers, frames, sending) = (runs.answers + calls.answers, runs.frames + calls.frames, runs.sending + calls.sending);
    println!("{} run files, {} call scripts, {answers} answers, {frames} frames in {sending} of the files", runs.files, calls.files);
    let mut missing = refusals(&runs, &calls);
    missing.extend(done(&runs, &calls));
    missing.extend(roles(&calls));
    missing.extend(last_ticks(&runs, "run files", wanted_of_run_files()));
    missing.extend(last_ticks(&calls, "scripts", wanted_of_scripts()));
    missing.extend(remainders(&runs, &calls));
    if !missing.is_empty() {
        println!("not reached: {}", missing.join(", "));
    }
    Ok(missing.is_empty())
}
