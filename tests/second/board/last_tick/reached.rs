//! What the tally remembers of a channel's last tick, and what an answer about it shows.

use crate::board::sending::Kind;
use crate::board::Board;
use crate::channel::{Function, Loaded};
use crate::last_tick::rows::{Delay, Edge, Length, Place, Row};
use crate::last_tick::LastTick;

/// The tally's part of a board.
#[derive(Clone, Default)]
pub struct Ticks {
    /// When the record of ticks began.
    began: u64,
    last: [Option<Tick>; 4],
}

/// A tick of a channel.
#[derive(Clone, Copy)]
struct Tick {
    /// What it would tell if it sent nothing.
    quiet: LastTick,
    /// The latest Start or Resume, and this tick's number since then.
    loaded: Option<(Loaded, u64)>,
    /// The delay that its register has now.
    delay: u64,
    /// The setpoint send before it since then: the ticks since, and the period after it.
    edge: Option<(u64, u64)>,
    /// A repeat would be due.
    is_due: bool,
    sends: Option<Kind>,
    /// The next send.
    next: Option<Kind>,
    /// The bits of FC by which a command frame is sent.
    command: u16,
    is_after_command: bool,
    is_hidden: bool,
    /// Its number in the record.
    number: u64,
}

impl Board {
    /// Before a record of ticks.
    pub fn watch_tick_record(&mut self) {
        self.ticks.began = self.now;
    }

    /// Before a channel's part of a tick.
    pub(in crate::board) fn watch_tick(&mut self, c: usize, quiet: LastTick) {
        let f = self.ch[c].function.as_ref();
        let loaded = f.map(|f| (f.loaded, self.now - f.loaded.at));
        let delay = loaded.map_or(0, |(loaded, _)| self.ch[c].delay_of(loaded, self.user));
        self.ticks.last[c] = Some(Tick {
            quiet,
            loaded,
            delay,
            edge: f.and_then(|f| f.last_send).map(|(at, period)| (self.now - at, period)),
            is_due: f.is_some_and(|f| f.due == self.now),
            sends: None,
            next: f.filter(|_| quiet == LastTick::BetweenEdges).map(|_| self.sending(c, false).kind),
            command: 0,
            is_after_command: self.ticks.last[c].is_some_and(|tick| tick.command > 0),
            is_hidden: self.tally.is_hidden,
            number: self.now - self.ticks.began,
        });
    }

    /// It sends a setpoint.
    pub(in crate::board) fn watch_tick_send(&mut self, c: usize, kind: Kind) {
        self.ticks.last[c].iter_mut().for_each(|tick| tick.sends = Some(kind));
    }

    /// It sends a command frame.
    pub(in crate::board) fn watch_tick_command(&mut self, c: usize, bits: u16) {
        self.ticks.last[c].iter_mut().for_each(|tick| tick.command = bits);
    }

    /// A reset: no tick yet.
    pub(in crate::board) fn watch_tick_reset(&mut self, c: usize) {
        self.ticks.last[c] = None;
    }

    /// What is shown by an answer about a channel (0–3).
    pub fn rows_of_last_tick(&self, c: usize) -> Vec<Row> {
        let told = self.ch[c].last_tick;
        let mut rows = vec![Row::OfChannel(told, c)];
        rows.extend((self.n == 0).then_some(Row::OfClosedBoard(told)));
        rows.extend((0..4).any(|other| self.ch[other].last_tick != told).then_some(Row::Beside));
        // what is counted is of this answer
        assert_eq!(self.ticks.last[c].is_none(), told == LastTick::NoTick);
        if let Some(tick) = self.ticks.last[c] {
            assert_eq!(tick.command > 0 || tick.sends.is_some(), told == LastTick::Sent);
            rows.extend(tick.rows_of_tick(told));
            rows.extend(tick.rows_of_delay(told));
            rows.extend(tick.rows_of_function(told));
        }
        rows
    }
}

impl Tick {
    fn rows_of_tick(self, told: LastTick) -> Vec<Row> {
        let mut rows = Vec::new();
        let lengths = [
            (self.number == 1, Length::One),
            (self.number >= 1_000, Length::Long),
            (self.number == 65_535, Length::Longest),
        ];
        rows.extend(lengths.iter().filter(|length| length.0).map(|length| Row::OfRecord(length.1, told)));
        rows.extend((self.command > 0).then_some(Row::Command(self.command, self.quiet)));
        rows.extend((self.is_after_command && self.command == 0).then_some(Row::AfterCommand(told)));
        let is_hidden = self.is_hidden && told == LastTick::Sent;
        rows.extend(is_hidden.then_some(Row::Hidden(self.command > 0)));
        rows
    }

    fn rows_of_delay(self, told: LastTick) -> Vec<Row> {
        let (Some((loaded, number)), 0) = (self.loaded, self.command) else { return Vec::new() };
        let mut rows = Vec::new();
        let is_rewritten = self.delay != loaded.delay;
        for place in Place::of(number, loaded.delay) {
            let delay = Delay::of(loaded.delay);
            match loaded.start {
                Some(how) => {
                    rows.extend([Row::Start(place, delay), Row::StartBy(place, how)]);
                    rows.extend(is_rewritten.then_some(Row::StartRewritten(place)));
                }
                None => {
                    rows.extend([Row::Resume(place, delay, told), Row::ResumeOf(place, loaded.resume)]);
                    rows.extend(is_rewritten.then_some(Row::ResumeRewritten(place)));
                }
            }
        }
        rows.extend((told == LastTick::ResumeGap && self.is_due).then_some(Row::RepeatDropped));
        rows
    }

    fn rows_of_function(self, told: LastTick) -> Vec<Row> {
        let mut rows: Vec<Row> = self.sends.map(Row::Sends).into_iter().collect();
        rows.extend(self.next.filter(|_| told == LastTick::BetweenEdges).map(Row::Waits));
        if let Some((since, period)) = self.edge {
            let is_between = told == LastTick::BetweenEdges;
            let edges = [
                (is_between && since == 1, Edge::First),
                (is_between && since + 1 == period, Edge::Last),
                (told == LastTick::Sent && since == period, Edge::Due),
            ];
            rows.extend(edges.iter().filter(|edge| edge.0).map(|edge| Row::Edge(period, edge.1)));
        }
        rows
    }
}

impl Function {
    /// A setpoint send, with the period that follows it.
    pub(in crate::board) fn watch_period(&mut self, now: u64, period: u64) {
        self.last_send = Some((now, period));
    }
}
