//! A file that grows: each record is put to a live bench, and its bytes after the others.

use super::dice::Dice;
use crate::answer::Answer;
use crate::board::Board;
use crate::role::Role;
use crate::{runfile, script};

#[derive(Clone, Copy)]
pub enum Op {
    Write(u32, u16),
    Read(u32),
    Set { c: u32, user: u32, buffer: u32, index: u32, word: u32 },
    Arm(u32),
    Disarm(u32),
    Reply(u32, u64),
    Ticks(u32),
    Event(u8),
    User(u32),
    /// Scripts only.
    Retired { c: u32, length: bool, lent: u8 },
    Level,
    /// With any permissions.
    Open { n: u32, m: u32, setpoints: u32, readbacks: u32 },
    /// With right lengths, and these permissions of the candidate and the watcher.
    OpenFor { n: u32, m: u32, access: [u8; 2] },
    Poke { readbacks: bool, at: u32, word: u32 },
    Ramp { n: u32, count: u32, codes: u32, remainders: u32 },
    Volts { c: u32, lent: u8 },
    Download { c: u32, lent: u8 },
    Portion { c: u32, first: u32, length: u32, is_length: bool, lent: u8 },
    LastTick { c: u32, lent: u8 },
    /// A whole record as it stands.
    Raw([u8; 16]),
}

pub fn run_record(kind: u8, channel: u32, a: u32, b: u32) -> [u8; 8] {
    let (a, b) = ((a as u16).to_le_bytes(), b.to_le_bytes());
    [kind, channel as u8, a[0], a[1], b[0], b[1], b[2], b[3]]
}

/// The record of a run file that asks this, if there is one.
fn as_run_record(op: Op, dice: &Dice) -> Option<[u8; 8]> {
    // "Kinds 1, 2, 4, 5 and 7 ignore the channel byte."
    let any = if dice.chance(80) { 0 } else { dice.below(256) };
    let unused = || if dice.chance(90) { 0 } else { dice.below(65_536) };
    Some(match op {
        Op::Write(address, value) => run_record(1, any, address, value as u32),
        Op::Read(address) => run_record(2, any, address, if dice.chance(80) { 0 } else { dice.roll() as u32 }),
        Op::Set { c, user, buffer, index, word } => {
            let in_range = (1..=8).contains(&user) && (1..=2).contains(&buffer) && index < 16;
            let a = if in_range { 32 * (user - 1) + 16 * (buffer - 1) + index } else { 256 + dice.below(65_280) };
            run_record(3, c, a, word)
        }
        Op::Event(code) => run_record(4, any, unused(), code as u32),
        Op::Ticks(n) => run_record(5, any, unused(), n),
        Op::Reply(c, reply) => run_record(6, c, (reply >> 32) as u32, reply as u32),
        Op::User(user) => run_record(7, any, unused(), user),
        Op::Arm(c) => run_record(8, c, unused(), 1),
        Op::Disarm(c) => run_record(8, c, 0, 0),
        Op::Raw(r) => [r[0], r[1], r[2], r[3], r[4], r[5], r[6], r[7]],
        Op::Retired { .. } | Op::Level | Op::Open { .. } | Op::Poke { .. } | Op::Ramp { .. } | Op::Volts { .. } => return None,
        Op::Download { .. } | Op::Portion { .. } | Op::OpenFor { .. } | Op::LastTick { .. } => return None,
    })
}

fn script_record(kind: u8, c: u32, lent: u8, buffer: u32, x: u32, y: u32, z: u32) -> [u8; 16] {
    let mut r = [0; 16];
    r[..4].copy_from_slice(&[kind, c as u8, lent, buffer as u8]);
    for (at, v) in [(4, x), (8, y), (12, z)] {
        r[at..at + 4].copy_from_slice(&v.to_le_bytes());
    }
    r
}

fn opening([candidate, watcher]: [u8; 2], n: u32, m: u32, setpoints: u32, readbacks: u32) -> [u8; 16] {
    script_record(0, candidate as u32, 0, watcher as u32, n, m, readbacks << 16 | setpoints)
}

/// For bytes that a kind does not name: mostly 0.
fn anything(dice: &Dice) -> u32 {
    if dice.chance(70) { 0 } else { dice.roll() as u32 }
}

/// A call that is given a channel and nothing else.
fn of_channel(kind: u8, c: u32, lent: u8, dice: &Dice) -> [u8; 16] {
    let any = anything(dice);
    script_record(kind, c, lent, any, any, any, any)
}

/// A lent code of two buffers, 8 and more of which are the channel's own.
pub fn lent_two(dice: &Dice) -> u8 {
    let own = 8 + dice.below(8) as u8;
    dice.of(&[0, 1, 2, 3, 4, 5, 6, 7, own])
}

/// A role's permissions: one, all but one, both of a channel, one way of all, all, none, or any.
pub fn permissions(dice: &Dice) -> u8 {
    let bit = 1 << dice.below(8);
    dice.of(&[bit, !bit, 0x11 << dice.below(4), 0x0F, 0xF0, 0xFF, 0, dice.below(256) as u8, dice.below(256) as u8])
}

/// The record of a script that asks this, by the examiner; a wrong memory is lent in `spite` percent of them.
fn as_script_record(op: Op, dice: &Dice, spite: u32) -> [u8; 16] {
    let right = if dice.chance(88) { 0 } else { 5 + dice.below(11) as u8 };
    let lent = if dice.chance(spite) { dice.of(&[1, 1, 2, 3, 3, 3, 4]) } else { right };
    match op {
        Op::Write(address, value) => script_record(1, 0, lent, 0, address, value as u32, 0),
        Op::Read(address) => script_record(2, 0, 0, 0, address, 0, 0),
        Op::Set { c, user, buffer, index, word } => script_record(3, c, lent, buffer, user, index, word),
        Op::Arm(c) => script_record(4, c, 0, 0, 0, 0, 0),
        Op::Disarm(c) => script_record(5, c, 0, 0, 0, 0, 0),
        Op::Reply(c, reply) => script_record(6, c, lent, 0, 0, reply as u32, (reply >> 32) as u32),
        Op::Retired { c, length, lent } => script_record(if length { 8 } else { 7 }, c, lent, 0, 0, 0, 0),
        Op::Ticks(n) => script_record(9, 0, lent, 0, n, 0, 0),
        Op::Event(code) => script_record(10, 0, lent, 0, code as u32, 0, 0),
        Op::User(user) => script_record(11, 0, 0, 0, user, 0, 0),
        Op::Level => script_record(12, 0, 0, 0, 0, 0, 0),
        Op::Open { n, m, setpoints, readbacks } => opening([permissions(dice), permissions(dice)], n, m, setpoints, readbacks),
        Op::OpenFor { n, m, access } => opening(access, n, m, 64 * n, 8 * m),
        Op::Poke { readbacks, at, word } => script_record(13, readbacks as u32, 0, 0, at, word, 0),
        Op::Ramp { n, count, codes, remainders } => {
            // bytes 1 to 3, and the high 16 bits of y, mean nothing
            let any = anything(dice);
            let [c, lent, buffer, _] = any.to_le_bytes();
            script_record(14, c as u32, lent, buffer as u32, n, any << 16 | count & 0xFFFF, remainders << 16 | codes & 0xFFFF)
        }
        Op::Volts { c, lent } => script_record(15, c, lent, 0, 0, 0, 0),
        Op::Download { c, lent } => of_channel(16, c, lent, dice),
        Op::LastTick { c, lent } => of_channel(19, c, lent, dice),
        Op::Portion { c, first, length, is_length, lent } => {
            let any = anything(dice);
            script_record(if is_length { 18 } else { 17 }, c, lent, any, first, length, any)
        }
        Op::Raw(bytes) => bytes,
    }
}

/// The record by this role: D5–D4 of byte 2. D7–D6 mean nothing, and 3 is the examiner too.
fn by(role: Role, mut record: [u8; 16], dice: &Dice) -> [u8; 16] {
    let role = match role {
        Role::Examiner => if dice.chance(95) { 0 } else { 3 },
        Role::Candidate => 1,
        Role::Watcher => 2,
    };
    let high = if dice.chance(90) { 0 } else { dice.below(4) as u8 };
    record[2] = record[2] & 0x0F | role << 4 | high << 6;
    record
}

/// What sets one script apart from another, in percent of its calls.
#[derive(Clone, Copy)]
struct Habits {
    /// A wrong memory is lent.
    spite: u32,
    /// They are another role's than the examiner's.
    others: u32,
}

enum Bench {
    Run(runfile::Bench),
    Script(script::Bench, Habits),
}

pub struct World {
    pub bytes: Vec<u8>,
    bench: Bench,
}

impl World {
    /// The records of a run file.
    pub fn run() -> World {
        World { bytes: Vec::new(), bench: Bench::Run(runfile::Bench::new()) }
    }
    /// A script with its header: mostly the examiner's.
    pub fn script(header: Vec<u8>, spite: u32) -> World {
        World::script_by(header, Habits { spite, others: 4 })
    }
    /// One of the examiner's alone.
    pub fn script_of_examiner(header: Vec<u8>) -> World {
        World::script_by(header, Habits { spite: 0, others: 0 })
    }
    /// One of all roles.
    pub fn script_of_roles(header: Vec<u8>) -> World {
        World::script_by(header, Habits { spite: 2, others: 30 })
    }
    fn script_by(header: Vec<u8>, habits: Habits) -> World {
        let (bench, _) = script::Bench::new(&header);
        World { bytes: header, bench: Bench::Script(bench, habits) }
    }
    pub fn is_script(&self) -> bool {
        matches!(self.bench, Bench::Script(..))
    }
    pub fn board(&self) -> &Board {
        match &self.bench {
            Bench::Run(bench) => &bench.board,
            Bench::Script(bench, _) => &bench.board,
        }
    }
    /// No story lets a closed board come to a send: it has no word to send (CALLS.md).
    fn is_closed_and_sends(&self, record: &[u8]) -> bool {
        let ticks = u16::from_le_bytes([record[4], record[5]]) as u64;
        let sends = |c| {
            let p = self.board().peek(c);
            (!p.idle && p.wait <= ticks) || p.command_is_due
        };
        self.board().n == 0 && (0..4).any(sends)
    }
    pub fn records(&self) -> usize {
        match self.bench {
            Bench::Run(_) => self.bytes.len() / 8,
            Bench::Script(..) => self.bytes.len() / 16 - 1,
        }
    }
    /// The call as a record that is lent too few words, and so is refused, whoever asks. No run file has one.
    pub fn put_refused(&mut self, op: Op, dice: &Dice) {
        self.put_refused_as(self.some_role(dice), op, dice);
    }
    pub fn put_refused_as(&mut self, role: Role, op: Op, dice: &Dice) {
        if self.is_script() {
            let mut record = as_script_record(op, dice, 0);
            record[2] = dice.of(&[1, 2]);
            self.step(&by(role, record, dice));
        }
    }
    /// The call as a script's record by this role, with right lengths.
    pub fn put_as(&mut self, role: Role, op: Op, dice: &Dice) {
        self.step(&by(role, as_script_record(op, dice, 0), dice));
    }
    /// The call as a record. What another role may not do the examiner mostly does after it.
    pub fn put(&mut self, op: Op, dice: &Dice) {
        match (&self.bench, op) {
            (Bench::Run(_), _) => _ = as_run_record(op, dice).map(|record| self.step(&record)),
            (_, Op::Raw(record)) => _ = self.step(&record),
            (Bench::Script(_, Habits { spite, .. }), _) => {
                let record = as_script_record(op, dice, *spite);
                let told = self.step(&by(self.some_role(dice), record, dice));
                if told == Some(Answer::Refused(13)) && dice.chance(75) {
                    self.step(&by(Role::Examiner, record, dice));
                }
            }
        }
    }
    fn some_role(&self, dice: &Dice) -> Role {
        match self.bench {
            Bench::Script(_, Habits { others, .. }) if dice.chance(others) => {
                dice.of(&[Role::Candidate, Role::Candidate, Role::Watcher])
            }
            _ => Role::Examiner,
        }
    }
    /// A record on the bench and in the file, unless that is full.
    fn step(&mut self, record: &[u8]) -> Option<Answer> {
        if self.bytes.len() + 16 > 65_536 || (record[0] == 9 && self.is_closed_and_sends(record)) {
            return None;
        }
        self.bytes.extend(record);
        Some(match &mut self.bench {
            Bench::Run(bench) => bench.step(record),
            Bench::Script(bench, _) => bench.step(record),
        })
    }
}
