//! Examples of the end word: document 02, request 3, whose quotations these are.

use super::{Done, Small};
use crate::board::{Board, Reply};
use crate::role::{Access, Role::Examiner};
use crate::script;

/// What stands in the lent readback words before a case.
const UNUSED: u32 = 0xA5A5_A5A5;
const END_WORD: u32 = 0x0200_0000;

/// Readback i of a group after sends of a last word that is sent first: D31 of the first six, D29 of all.
fn readback(i: usize) -> u32 {
    let first = if i < 6 { 1 << 31 } else { 0 };
    first | 1 << 29 | 0x15 << 16 | i as u32
}

impl Small {
    /// A board of this depth, whose channel 1 repeats its last word with Frame ID 15h.
    fn started(m: u32) -> Small {
        let mut t = Small::of_depth(m, &[0x8000_0005]);
        t.r.fill(UNUSED);
        t.write(0x814, 0x15);
        t.write(0x808, 1);
        t
    }
    /// So many replies, numbered from 0, after as many sends as they need: how many of them are kept, the rest then lost.
    fn group(&mut self, replies: usize) -> Option<usize> {
        let said: Vec<Reply> = (0..replies)
            .map(|i| {
                if i % 6 == 0 {
                    self.sends(1, 10);
                }
                self.reply(i)
            })
            .collect();
        let kept = said.iter().take_while(|r| **r == Reply::Kept).count();
        said[kept..].iter().all(|r| *r == Reply::Lost).then_some(kept)
    }
    /// The readback words are these, and no other was written.
    fn has(&self, words: &[u32]) -> bool {
        self.r.starts_with(words) && self.r[words.len()..].iter().all(|w| *w == UNUSED)
    }
}

pub fn all() -> Done {
    [depth_1(), depth_2(), full(), empty(), older(), resets(), missing(), command(), closed()].concat()
}

/// "With M = 1 a buffer takes only the end word."
fn depth_1() -> Done {
    let mut t = Small::started(1);
    let kept = t.group(6);
    let seventh = t.reply(6);
    let is_unwritten = t.has(&[]);
    t.group_end();
    let once = t.has(&[END_WORD]) && t.part().is_empty();
    t.group_end();
    vec![
        ("M 1: six replies lost, the seventh unasked", kept == Some(0) && seventh == Reply::Unasked && is_unwritten),
        ("M 1: Group End writes word 0", once),
        ("M 1: the next one writes word 1", t.has(&[END_WORD; 2]) && t.part().is_empty()),
    ]
}

/// "A buffer of depth M takes M − 1 readbacks and the next is lost."
fn depth_2() -> Done {
    let mut t = Small::started(2);
    let kept = t.group(2);
    t.group_end();
    vec![
        ("M 2: one reply kept, the next lost", kept == Some(1)),
        ("M 2: the end word in word 1", t.has(&[readback(0), END_WORD])),
        ("M 2: a part of one word", t.part() == [readback(0)]),
    ]
}

/// Full buffers: depths, and as many replies as they take or more.
const FULL: [(&str, u32, usize); 8] = [
    ("M 3 full: its words, its part", 3, 2),
    ("M 3, one reply lost: its words, its part", 3, 3),
    ("M 7 full: its words, its part", 7, 6),
    ("M 7, one reply lost: its words, its part", 7, 7),
    ("M 13, two replies lost: its words, its part", 13, 14),
    ("M 64 full: its words, its part", 64, 63),
    ("M 64, one reply lost: its words, its part", 64, 64),
    ("M 64, seven replies lost: its words, its part", 64, 70),
];

/// "Group End always writes the end word." "The retired part still excludes the end word."
fn full() -> Done {
    let mut done = Vec::new();
    for (label, m, replies) in FULL {
        let mut t = Small::started(m);
        let most = m as usize - 1;
        let kept = t.group(replies);
        t.group_end();
        let stored: Vec<u32> = (0..most).map(readback).collect();
        let is_written = t.has(&[&stored[..], &[END_WORD]].concat());
        done.push((label, kept == Some(most) && is_written && t.part() == stored));
    }
    done
}

/// An empty group, and one with space left.
fn empty() -> Done {
    let mut t = Small::started(3);
    t.group_end();
    let is_first = t.has(&[END_WORD]) && t.part().is_empty();
    t.write(0x808, 1);
    t.group(1);
    t.group_end();
    vec![
        ("an empty group", is_first),
        ("space left", t.has(&[END_WORD, UNUSED, UNUSED, readback(0), END_WORD]) && t.part() == [readback(0)]),
    ]
}

/// Buffer 1 again, after a full group: its older end word stands in the last place, and the count alone says where the
/// part ends.
fn older() -> Done {
    let mut t = Small::started(4);
    t.group(4);
    t.group_end();
    t.group_end();
    t.write(0x808, 1);
    t.group(1);
    t.group_end();
    let words = [readback(0), END_WORD, readback(2), END_WORD, END_WORD];
    vec![("an older end word", t.has(&words) && t.part() == [readback(0)])]
}

/// Document 01: "Reset D0 returns that channel to its opening state; lent words and its Main bits stay".
fn resets() -> Done {
    let mut t = Small::started(2);
    t.group(2);
    t.write(0x806, 1);
    let is_left = t.has(&[readback(0)]) && t.part().is_empty();
    t.group_end();
    let mut after = Small::started(3);
    after.group(1);
    after.group_end();
    after.write(0x806, 1);
    let is_part_gone = after.part().is_empty();
    after.group_end();
    vec![
        ("a reset of a full buffer", is_left),
        ("Group End after it", t.has(&[END_WORD]) && t.part().is_empty()),
        ("a reset after Group End", is_part_gone && after.has(&[END_WORD; 2])),
    ]
}

/// Document 01: a lost reply "counts among the six"; so request 2 counts it as one that came.
fn missing() -> Done {
    let count = |replies| {
        let mut t = Small::started(1);
        t.group(replies);
        t.sends(1, 10);
        t.b.read(Examiner, 0x80C).unwrap()
    };
    vec![("six lost, none missing", count(6) == 0), ("five lost, one missing", count(5) == 1)]
}

/// Request 1: replies to a command frame are "answered as kept and stored in no buffer".
fn command() -> Done {
    let mut t = Small::of_depth(1, &[]);
    t.r.fill(UNUSED);
    t.write(0x8FC, 1);
    t.sends(1, 1);
    let is_kept = (0..6).all(|i| t.reply(i) == Reply::Kept);
    let is_in_pairs = t.b.read(Examiner, 0x8FE) == Ok(6) && t.b.read(Examiner, 0x8FA) == Ok(5);
    let is_unwritten = t.has(&[]);
    t.group_end();
    vec![
        ("M 1: replies to a command frame", is_kept && is_in_pairs && is_unwritten),
        ("M 1: Group End after them", t.has(&[END_WORD])),
    ]
}

/// A closed board is lent no word for the end word (CALLS.md).
fn closed() -> Done {
    let (mut b, opened) = Board::open(1, 0, 64, 0, Access::NONE);
    let ended = b.write(Examiner, 0x808, 4, &mut []);
    let header = [1, 0, 0, 0];
    let mut group_end = [0; 16];
    (group_end[0], group_end[4], group_end[5], group_end[8]) = (1, 0x08, 0x08, 4);
    let told = script::tell(&[&header[..], &[0; 12], &group_end].concat()).text;
    vec![
        ("Group End of a closed board", opened == Err(1) && ended == Ok(()) && b.read(Examiner, 0x80E) == Ok(0x100)),
        ("and in a script", told.starts_with("0 refused 1\n1 ok\nend ")),
    ]
}
