//! What came between a channel's last tick and an answer about it, for the tally.

use super::rows::{Came, Counts, NoChannel, NoReset, Row};
use super::LastTick;
use crate::answer::Answer;
use crate::board::Board;
use crate::role::Role;
use std::collections::BTreeSet;

/// What the tally remembers of a file.
#[derive(Default)]
pub struct Watch {
    pub counts: Counts,
    /// What came to each channel since its last tick.
    since: [BTreeSet<Since>; 4],
    /// Why there is no tick yet, where there was one before.
    cleared: [Option<Row>; 4],
    /// Its first tick since a reset was the last.
    is_first: [bool; 4],
    /// The channel that the record before this one asked about.
    asked: Option<usize>,
}

#[derive(Clone, Copy, PartialEq, Eq, PartialOrd, Ord)]
enum Since {
    /// Another tick would tell this.
    Changed(Came, LastTick),
    /// So would a tick that was refused.
    Refused(u8),
    NoTicks,
    NoReset(NoReset),
}

/// The board before a record: what is told of each channel, and what another tick would tell.
#[derive(Clone, Copy)]
pub struct Before {
    last: [LastTick; 4],
    next: [LastTick; 4],
}

impl Before {
    pub fn new(board: &Board) -> Before {
        Before { last: board.last_ticks(), next: std::array::from_fn(|c| board.next_tick(c)) }
    }
}

/// A call that asks what the last tick did.
#[derive(Clone, Copy)]
pub struct Asked {
    pub c: u32,
    pub role: Role,
    /// A lent code that is wrong for other calls.
    pub is_wrong_code: bool,
}

impl Watch {
    fn count(&mut self, rows: Vec<Row>) {
        rows.into_iter().for_each(|row| *self.counts.entry(row).or_default() += 1);
    }

    /// After a record that asks for something else.
    pub fn step(&mut self, came: Came, told: &Answer, before: Before, board: &Board) {
        self.asked = None;
        let number = if let Answer::Refused(number) = told { Some(*number) } else { None };
        match (came, number) {
            (Came::Ticks(0), _) => self.left(before, Since::NoTicks),
            (Came::Ticks(_), Some(number)) => self.left(before, Since::Refused(number)),
            (Came::Ticks(count), None) => self.ticked(count, board),
            (Came::Open, _) => self.opened(before, number.is_some()),
            (Came::Reset(c, true), None) => self.reset(c, before),
            (Came::Reset(c, true), Some(number)) => _ = self.since[c].insert(Since::NoReset(NoReset::Refused(number))),
            (Came::Reset(c, false), None) => _ = self.since[c].insert(Since::NoReset(NoReset::WithoutD0)),
            _ => self.changed(came, before, board),
        }
    }

    fn left(&mut self, before: Before, since: Since) {
        for c in (0..4).filter(|c| before.next[*c] != before.last[*c]) {
            self.since[c].insert(since);
        }
    }

    fn ticked(&mut self, count: u32, board: &Board) {
        self.since = Default::default();
        for c in 0..4 {
            let is_reset = matches!(self.cleared[c].take(), Some(Row::ResetFrom(_)));
            self.is_first[c] = is_reset && count == 1 && board.last_ticks()[c] == LastTick::Disarmed;
        }
    }

    fn opened(&mut self, before: Before, is_refused: bool) {
        self.since = Default::default();
        self.is_first = Default::default();
        self.cleared = before.last.map(|last| (last != LastTick::NoTick).then_some(Row::Opened(is_refused)));
    }

    fn reset(&mut self, c: usize, before: Before) {
        self.since[c].clear();
        self.is_first[c] = false;
        if before.last[c] != LastTick::NoTick {
            self.cleared[c] = Some(Row::ResetFrom(before.last[c]));
        }
        for other in (0..4).filter(|other| *other != c) {
            self.since[other].insert(Since::NoReset(NoReset::OfOtherChannel));
        }
    }

    fn changed(&mut self, came: Came, before: Before, board: &Board) {
        for c in 0..4 {
            let next = board.next_tick(c);
            if next != before.next[c] {
                self.since[c].insert(Since::Changed(came, next));
            }
        }
    }

    /// After a call that asks what the last tick did.
    pub fn ask(&mut self, asked: Asked, told: &Answer, board: &Board) {
        let rows = match *told {
            Answer::LastTick(last) => {
                let c = asked.c as usize - 1;
                let mut rows = self.rows(c, last, board);
                rows.push(Row::ToRole(last, asked.role));
                rows.extend(asked.is_wrong_code.then_some(Row::WhateverLentCode));
                rows.extend((self.asked == Some(c)).then_some(Row::AskedAgain));
                self.asked = Some(c);
                rows
            }
            Answer::Refused(2) => refused(asked.c, board.n == 0),
            _ => Vec::new(),
        };
        self.count(rows);
    }

    /// At the end of a run file.
    pub fn end(&mut self, board: &Board) {
        for c in 0..4 {
            let rows = self.rows(c, board.last_ticks()[c], board);
            self.count(rows);
        }
    }

    /// What is shown by this answer about a channel (0–3).
    fn rows(&self, c: usize, told: LastTick, board: &Board) -> Vec<Row> {
        let mut rows = board.rows_of_last_tick(c);
        rows.extend(self.since[c].iter().filter_map(|since| match *since {
            Since::Changed(came, next) => (told != next).then_some(Row::KeptOver(came, told, next)),
            Since::Refused(number) => Some(Row::LeftByRefused(number, told)),
            Since::NoTicks => Some(Row::LeftByNoTicks(told)),
            Since::NoReset(why) => (told != LastTick::NoTick).then_some(Row::ResetLeft(why)),
        }));
        rows.extend(self.cleared[c].filter(|_| told == LastTick::NoTick));
        rows.extend(self.is_first[c].then_some(Row::TickAfterReset));
        rows
    }
}

fn refused(c: u32, is_closed: bool) -> Vec<Row> {
    let rows = [
        (c == 0, NoChannel::Zero),
        (c == 5, NoChannel::Five),
        (c == 255, NoChannel::Most),
        (c > 7 && (1..=4).contains(&(c & 7)), NoChannel::LowBits),
        (is_closed, NoChannel::OnClosedBoard),
    ];
    rows.iter().filter(|row| row.0).map(|row| Row::Refused(row.1)).collect()
}
