//! Examples of what the last tick did: document 02, request 10, whose quotations these are.

mod kept;

use super::{Done, Small};
use crate::last_tick::LastTick::{self, *};
use crate::role::Role::{Candidate, Examiner, Watcher};
use crate::role::{Access, Permissions, Role};
use crate::{runfile, script};

impl Small {
    fn last(&self, c: u32) -> LastTick {
        self.b.last_tick(Examiner, c).unwrap()
    }
    /// What is told of channel 1 after each of so many ticks.
    fn each_tick(&mut self, count: u64) -> Vec<LastTick> {
        (0..count).map(|_| self.tick_once()).collect()
    }
    fn tick_once(&mut self) -> LastTick {
        self.tick(Examiner).unwrap();
        self.last(1)
    }
    /// Channel 1's start delay, or that of Resume k, of user 1.
    fn delay(&mut self, k: u32, delay: u64) {
        self.write(0x840 + 0x20 * k, (delay >> 16) as u16);
        self.write(0x842 + 0x20 * k, delay as u16);
    }
    /// Event 1 starts channel 1, with this delay.
    fn start(&mut self, delay: u64) {
        self.delay(0, delay);
        self.write(0x820, 0x101);
        self.event(1);
    }
    fn event(&mut self, code: u8) {
        self.b.event(Examiner, code, &mut self.r).unwrap();
    }
    /// Channel 1 pauses on tick 10; so many ticks later event 2 resumes it, with this delay.
    fn resume(delay: u64, later: u64) -> Small {
        let mut t = Small::new(&[0x0001_0005, 6, 7]);
        t.write(0x808, 1);
        t.each_tick(10 + later);
        t.delay(1, delay);
        t.write(0x822, 0x102);
        t.event(2);
        t
    }
}

/// Runs of the same, each with its length.
fn runs(told: &[LastTick]) -> Vec<(LastTick, u64)> {
    let mut runs: Vec<(LastTick, u64)> = Vec::new();
    for last in told {
        match runs.last_mut() {
            Some((same, count)) if same == last => *count += 1,
            _ => runs.push((*last, 1)),
        }
    }
    runs
}

pub fn all() -> Done {
    [list(), starts(), resumes(), clocks(), commands(), seats(), files(), kept::all()].concat()
}

/// "no tick yet, sent, disarmed, idle, start delay, start gap, resume gap, or between clock edges"
fn list() -> Done {
    let mut t = Small::new(&[5]);
    let before = [1, 2, 3, 4].map(|c| t.last(c));
    let after = [t.tick_once(), t.last(2), t.last(4)];
    t.write(0x808, 1);
    let started = t.each_tick(11);
    vec![
        ("no tick yet", before == [NoTick; 4]),
        ("idle, and disarmed", after == [Idle, Disarmed, Disarmed]),
        ("start gap, sent, between clock edges", runs(&started) == [(StartGap, 9), (Sent, 1), (BetweenEdges, 1)]),
        ("other channels beside it", [t.last(2), t.last(3), t.last(4)] == [Disarmed; 3]),
    ]
}

/// "With start delay D, no command frame and only ticks after Start, ticks 1 to D are start delay, D + 1 to D + 9 are start
/// gap, and D + 10 is sent."
fn starts() -> Done {
    let is = |delay: u64| {
        let mut t = Small::new(&[5]);
        t.start(delay);
        (1..=delay).all(|_| t.tick_once() == StartDelay) && runs(&t.each_tick(10)) == [(StartGap, 9), (Sent, 1)]
    };
    let restarted = |delay: u64, after: u64| {
        let mut t = Small::new(&[5, 6]);
        t.start(0);
        t.each_tick(after);
        t.start(delay);
        runs(&t.each_tick(delay + 10)) == [(StartDelay, delay), (StartGap, 9), (Sent, 1)]
    };
    let mut by_command = Small::new(&[5]);
    by_command.delay(0, 50);
    by_command.write(0x808, 1);
    let mut rewritten = Small::new(&[5]);
    rewritten.start(20);
    rewritten.delay(0, 3);
    vec![
        ("start delay 0", is(0)),
        ("start delay 1", is(1)),
        ("start delays 2 to 40", (2..=40).all(is)),
        ("start delay 65,536", is(65_536)),
        ("start delay FFFFFFh", is(0xFF_FFFF)),
        ("restarts, in the gap, after a send and between edges", [4, 9, 10, 15].iter().all(|after| restarted(7, *after))),
        ("no delay of a command", runs(&by_command.each_tick(10)) == [(StartGap, 9), (Sent, 1)]),
        ("a delay written after Start", runs(&rewritten.each_tick(30)) == [(StartDelay, 20), (StartGap, 9), (Sent, 1)]),
    ]
}

/// Document 01: "Repeats go on through that delay, its last tick included; then 9 ticks are silent and the next word leaves
/// on the 10th, restarting the clock." Here: "A resume delay between repeats counts as between edges."
fn resumes() -> Done {
    let (edges, gap, sent) = ((BetweenEdges, 9), (ResumeGap, 9), (Sent, 1));
    let is = |delay, later, count, wanted: &[(LastTick, u64)]| runs(&Small::resume(delay, later).each_tick(count)) == wanted;
    let mut vme = Small::new(&[0x0010_0005, 6]);
    vme.write(0x808, 1);
    vme.each_tick(15);
    vme.write(0x808, 2);
    // period 10, the pause on tick 10 and its Resume so many ticks later
    vec![
        ("resume delay 25", is(25, 0, 36, &[edges, sent, edges, sent, (BetweenEdges, 5), gap, sent, (BetweenEdges, 1)])),
        ("resume delay 0", is(0, 0, 10, &[gap, sent])),
        ("resume delay 1", is(1, 0, 11, &[(BetweenEdges, 1), gap, sent])),
        ("a repeat on the delay's last tick", is(20, 0, 30, &[edges, sent, edges, sent, gap, sent])),
        ("a repeat on its first tick", is(3, 9, 13, &[sent, (BetweenEdges, 2), gap, sent])),
        ("a repeat that falls into the gap", is(5, 3, 15, &[(BetweenEdges, 5), gap, sent])),
        ("a repeat that falls on its first tick", is(9, 0, 19, &[edges, gap, sent])),
        ("Commands D1", runs(&vme.each_tick(20)) == [gap, sent, edges, sent]),
    ]
}

/// Document 01: periods of 10,000, 1,000, 100 and 10.
fn clocks() -> Done {
    let is = |code: u16, period: u64| {
        let mut t = Small::new(&[5, 0x8000_0006]);
        t.write(0x80A, code);
        t.write(0x808, 1);
        let one = [(BetweenEdges, period - 1), (Sent, 1)];
        // the next word, which is last, and its repeats
        runs(&t.each_tick(10 + 3 * period)) == [&[(StartGap, 9), (Sent, 1)], &one[..], &one, &one].concat()
    };
    vec![
        ("each period", is(0, 10_000) && is(1, 1_000) && is(2, 100) && is(3, 10)),
    ]
}

/// "A command frame counts as sent."
fn commands() -> Done {
    let asked = |bits: u16, then: fn(&mut Small)| {
        let mut t = Small::new(&[5]);
        t.delay(0, 3);
        [0x820, 0x82A].iter().for_each(|address| t.write(*address, 0x101));
        then(&mut t);
        t.write(0x8FC, bits);
        t
    };
    let mut idle = asked(1, |_| {});
    let mut disarmed = asked(2, |t| t.b.disarm(Examiner, 1).unwrap());
    disarmed.group_end();
    let mut delayed = asked(1, |t| t.write(0x82A, 0));
    delayed.event(1);
    let mut ended = asked(2, |_| {});
    ended.event(1);
    let mut dropped = asked(1, |_| {});
    dropped.b.disarm(Examiner, 1).unwrap();
    let mut waiting = asked(2, |_| {});
    vec![
        ("a command frame while idle", idle.each_tick(2) == [Sent, Idle]),
        ("while disarmed", disarmed.each_tick(2) == [Sent, Disarmed]),
        ("in a start delay", runs(&delayed.each_tick(13)) == [(Sent, 1), (StartDelay, 2), (StartGap, 9), (Sent, 1)]),
        ("after Group End and Start", runs(&ended.each_tick(13)) == [(Sent, 1), (StartDelay, 2), (StartGap, 9), (Sent, 1)]),
        ("one that was dropped", dropped.each_tick(1) == [Disarmed]),
        ("one that waits", waiting.each_tick(3) == [Idle; 3]),
    ]
}

/// "The call needs the read right." Refused 2 and then 13.
fn seats() -> Done {
    let access = Access { candidate: Permissions(0x01), watcher: Permissions(0xF2) };
    let mut t = Small::open_for(7, &[5], access);
    t.write(0x808, 1);
    t.each_tick(9);
    let ask = |role: Role| [1, 2, 3].map(|c| t.b.last_tick(role, c));
    let told = [ask(Examiner), ask(Candidate), ask(Watcher)];
    let is_none = |c: u32| [Examiner, Candidate, Watcher].iter().all(|role| t.b.last_tick(*role, c) == Err(2));
    let none = [0, 5, 9, 255, 256, u32::MAX].iter().all(|c| is_none(*c));
    // a candidate that reads channel 2 alone ticks and is shown nothing; the watcher, who reads channel 1, is told that it sent
    let mut hidden = Small::open_for(7, &[5], Access { candidate: Permissions(0x02), watcher: Permissions(0x01) });
    hidden.write(0x808, 1);
    hidden.each_tick(9);
    let is_hidden = hidden.tick(Candidate) == Ok([None; 4]);
    vec![
        ("the examiner", told[0] == [Ok(StartGap), Ok(Disarmed), Ok(Disarmed)]),
        ("a candidate who reads channel 1", told[1] == [Ok(StartGap), Err(13), Err(13)]),
        ("a watcher who reads channel 2", told[2] == [Err(13), Ok(Disarmed), Err(13)]),
        ("2 before 13", none),
        ("a frame that is not shown", is_hidden && hidden.b.last_tick(Watcher, 1) == Ok(Sent)),
        ("and 13 for who may not read it", hidden.b.last_tick(Candidate, 1) == Err(13)),
    ]
}

/// `why`, and kind 19 of a script on a closed board.
fn files() -> Done {
    let empty = [8, 0, 0, 0, 0, 0, 0, 0];
    let ticks = [[5, 0, 0, 0, 1, 0, 0, 0], [16, 0, 0, 0, 1, 0, 0, 0]].concat();
    let no_tick = ": no tick yet. No tick has come since the board was opened or the channel was reset.";
    let is_no_tick = |line: &str| line.ends_with(no_tick);
    let record = |kind: u8, c: u8, x: u8| {
        let mut r = [0; 16];
        (r[0], r[1], r[4]) = (kind, c, x);
        r
    };
    // header of N 0 and M 0; asked, no ticks, asked, one tick, asked, of no channel
    let ask = record(19, 4, 0);
    let closed = [[0; 16], ask, record(9, 0, 0), ask, record(9, 0, 1), ask, record(19, 5, 0)].concat();
    let said = "0 refused 1\n1 reason no-tick\n2 ticks\n3 reason no-tick\n4 ticks\n5 reason disarmed\n6 refused 2\nend ";
    vec![
        ("an empty run", runfile::why(&empty).lines().count() == 4 && runfile::why(&empty).lines().all(is_no_tick)),
        ("one tick", runfile::why(&ticks).lines().nth(3).unwrap().starts_with("channel 4: disarmed. ")),
        ("no run file", runfile::why(&empty[1..]) == "file 8\n"),
        ("ticks of a closed board", script::tell(&closed).text.starts_with(said)),
    ]
}
