//! Examples of roles: document 02, request 9, whose quotations these are.

mod frames;
mod order;

use super::{Done, Small};
use crate::board::{Portion, Setpoint};
use crate::map::{readable, writable};
use crate::role::Role::{Candidate, Examiner, Watcher};
use crate::role::{Access, Permissions, Role};

/// A call by a role on a channel: 0, or the refusal's number.
type Ask = fn(&mut Small, Role, u32) -> u8;

fn number<T>(told: Result<T, u8>) -> u8 {
    told.map_or_else(|n| n, |_| 0)
}

fn access(candidate: u8, watcher: u8) -> Access {
    Access { candidate: Permissions(candidate), watcher: Permissions(watcher) }
}

impl Small {
    fn set(&mut self, role: Role, c: u32, user: u32, buffer: u32, index: u32) -> u8 {
        number(self.b.set(role, Setpoint { c, user, buffer, index, word: 1 }, &mut self.s))
    }
    fn write_as(&mut self, role: Role, address: u32, value: u16) -> u8 {
        number(self.b.write(role, address, value, &mut self.r))
    }
    fn reply_as(&mut self, role: Role, c: u32, reply: u64) -> u8 {
        number(self.b.reply(role, c, reply, &mut self.r))
    }
    fn portion_as(&mut self, role: Role, c: u32, first: u32, length: u32) -> u8 {
        let m = self.b.m as usize;
        number(self.b.portion(role, Portion { c, first, length, is_length: false }, [&self.r[..m], &self.r[m..2 * m]]))
    }
    fn retired_as(&mut self, role: Role, c: u32) -> u8 {
        let m = self.b.m as usize;
        number(self.b.retired(role, c, &self.r[..m], &self.r[m..2 * m]))
    }
    fn event_as(&mut self, role: Role, code: u8) -> u8 {
        number(self.b.event(role, code, &mut self.r))
    }
}

/// "Setpoint writes, register writes, arming, disarming and replies need the write right."
const WRITES: [(&str, Ask); 5] = [
    ("setpoint writes", |t, role, c| t.set(role, c, 1, 2, 0)),
    ("register writes", |t, role, c| t.write_as(role, 0x800 * c + 0x14, 1)),
    ("arming", |t, role, c| number(t.b.arm(role, c))),
    ("disarming", |t, role, c| number(t.b.disarm(role, c))),
    ("replies", |t, role, c| t.reply_as(role, c, 3)),
];

/// "Register reads, voltages, retired parts and downloads need the read right"
const READS: [(&str, Ask); 5] = [
    ("register reads", |t, role, c| number(t.b.read(role, 0x800 * c + 0x0E))),
    ("voltages", |t, role, c| number(t.b.voltages(role, c))),
    ("retired parts", |t, role, c| t.retired_as(role, c)),
    ("openings of downloads", |t, role, c| number(t.b.open_download(role, c))),
    ("portions", |t, role, c| {
        t.b.open_download(Examiner, c).unwrap();
        t.portion_as(role, c, 0, 0)
    }),
];

/// "Main registers, user changes and the interrupt level are the examiner's."
const OF_EXAMINER: [(&str, Ask); 5] = [
    ("Main written", |t, role, _| t.write_as(role, 0x22, 1)),
    ("Main read", |t, role, _| number(t.b.read(role, 0x26))),
    ("a status of Main", |t, role, _| number(t.b.read(role, 0x2A))),
    ("user changes", |t, role, _| number(t.b.change_user(role, 1))),
    ("the interrupt level", |t, role, _| number(t.b.interrupt_level(role))),
];

/// "Ticks and events are the examiner's and the candidate's"
const RUNS: [(&str, Ask); 2] = [
    ("ticks", |t, role, _| number(t.tick(role))),
    ("events", |t, role, _| t.event_as(role, 1)),
];

pub fn all() -> Done {
    [of_channel(), registers(), shared(), clearing(), order::all(), frames::all()].concat()
}

/// With one permission for the one role and all others for the other, a call is the one's on its channel or the other's.
fn needs(ask: Ask, bit: fn(u32) -> u8) -> bool {
    (0..8).all(|k| {
        let mut t = Small::open_for(7, &[5], access(1 << k, !(1 << k)));
        (1..=4).all(|c| {
            let (own, other) = if bit(c) == 1 << k { (0, 13) } else { (13, 0) };
            ask(&mut t, Candidate, c) == own && ask(&mut t, Watcher, c) == other && ask(&mut t, Examiner, c) == 0
        })
    })
}

fn of_channel() -> Done {
    let writes = WRITES.map(|(name, ask)| (name, needs(ask, |c| 0x10 << (c - 1))));
    let reads = READS.map(|(name, ask)| (name, needs(ask, |c| 1 << (c - 1))));
    [writes, reads].concat()
}

/// Every register of channel 1 needs the one permission alone, but those that a read clears.
fn registers() -> Done {
    let mut t = Small::open_for(7, &[5], access(0x01, 0x10));
    let mut read = readable();
    read.retain(|offset| ![0x02, 0x04, 0x0C].contains(offset));
    let is_read = |t: &mut Small, offset| [Candidate, Watcher].map(|role| number(t.b.read(role, 0x800 + offset))) == [0, 13];
    let is_written = |t: &mut Small, offset| [Candidate, Watcher].map(|role| t.write_as(role, 0x800 + offset, 0)) == [13, 0];
    vec![
        ("every register read", read.iter().all(|offset| is_read(&mut t, *offset))),
        ("every register written", writable().iter().all(|offset| is_written(&mut t, *offset))),
    ]
}

fn shared() -> Done {
    let told = |ask: Ask, access: Access| {
        let mut t = Small::open_for(7, &[5], access);
        [Examiner, Candidate, Watcher].map(|role| ask(&mut t, role, 0))
    };
    let (all, none) = (access(0xFF, 0xFF), Access::NONE);
    let is = |ask: Ask, wanted: [u8; 3]| told(ask, all) == wanted && told(ask, none) == wanted;
    let of_examiner = OF_EXAMINER.map(|(name, ask)| (name, is(ask, [0, 13, 13])));
    let runs = RUNS.map(|(name, ask)| (name, is(ask, [0, 0, 13])));
    [&of_examiner[..], &runs[..]].concat()
}

/// "reading 02, 04 or 0C needs both, as it clears"
fn clearing() -> Done {
    // RUN, after a Start, in both statuses
    let status = |access, address| {
        let mut t = Small::open_for(7, &[5], access);
        t.write(0x808, 1);
        [t.b.read(Candidate, address), t.b.read(Watcher, address), t.b.read(Examiner, address)]
    };
    // six that never came, after the first of two sends of ID 15h
    let count = |access| {
        let mut t = Small::open_for(7, &[5, 6], access);
        t.write(0x814, 0x15);
        t.write(0x808, 1);
        t.sends(1, 20);
        [t.b.read(Candidate, 0x80C), t.b.read(Watcher, 0x80C), t.b.read(Examiner, 0x80C)]
    };
    // no permission alone is enough, and what is refused is still there
    let halves = [access(0x01, 0x10), access(0xFE, 0xEF), access(0x10, 0), access(0xEF, 0x01)];
    let refused = |value| [Err(13), Err(13), Ok(value)];
    vec![
        ("02 needs both", halves.iter().all(|access| status(*access, 0x802) == refused(0x8000))),
        ("04 needs both", halves.iter().all(|access| status(*access, 0x804) == refused(0x8000))),
        ("0C needs both", halves.iter().all(|access| count(*access) == refused(6))),
        ("a candidate's read clears 02", status(access(0x11, 0), 0x802) == [Ok(0x8000), Err(13), Ok(0)]),
        ("a watcher's read clears 04", status(access(0, 0x11), 0x804) == [Err(13), Ok(0x8000), Ok(0)]),
        ("a watcher's read clears 0C", count(access(0, 0xFF)) == [Err(13), Ok(6), Ok(0)]),
    ]
}
