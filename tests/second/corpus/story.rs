//! A story: what is prepared on the channels, and the pieces that its acts are made of.

use super::acts::act;
use super::dice::Dice;
use super::ramp::ramps;
use super::world::{Op, World};
use crate::board::Peek;
use crate::frame::frame;

pub const BASE: u32 = 0x800;
pub const DEPTHS_N: &[u32] = &[1, 1, 2, 2, 3, 4, 5, 8, 16, 31, 32];
pub const DEPTHS_M: &[u32] = &[1, 2, 2, 3, 5, 6, 7, 12, 13, 64];

/// What sets one story apart from another.
pub struct Taste {
    /// Few event codes, so that one event does several things.
    pub codes: Vec<u8>,
    pub channels: Vec<u32>,
    pub users: u32,
    pub clocks: &'static [u16],
    /// Pauses among a function's words, in percent.
    pauses: u32,
    /// Functions that end with D31 (the others run to index N − 1), in percent.
    ends: u32,
    /// Wrong channels, addresses, users, records, in percent.
    pub quirks: u32,
    /// Replies are sent until buffers are full.
    pub fills: bool,
    delays: u32,
    /// Acts around tags, in percent.
    pub tags: u32,
    /// Acts around readings in volts, in percent.
    pub volts: u32,
    /// Acts around downloads, in percent.
    pub downloads: u32,
    /// Acts around roles, in percent.
    pub roles: u32,
    /// Acts around what the last tick did, in percent.
    pub last_ticks: u32,
}

impl Taste {
    fn new(d: &Dice) -> Taste {
        let count = d.of(&[1, 2, 3, 4, 8]);
        let codes = (0..count).map(|_| d.below(256) as u8).collect();
        let mut channels = vec![1, 2, 3, 4];
        let wanted = d.of(&[1, 1, 2, 2, 3, 4]);
        while channels.len() > wanted {
            channels.remove(d.below(channels.len() as u32) as usize);
        }
        Taste {
            codes,
            channels,
            users: d.of(&[1, 2, 3, 8]),
            clocks: d.of(&[&[3][..], &[3], &[3], &[3, 3, 3, 2], &[3, 3, 2, 1, 0]]),
            pauses: d.of(&[0, 20, 40, 70]),
            ends: d.of(&[0, 60, 100]),
            quirks: d.of(&[0, 3, 10, 30]),
            fills: d.chance(25),
            delays: d.of(&[1, 12, 30, 60]),
            tags: d.of(&[0, 3, 6]),
            volts: 3,
            downloads: 2,
            roles: 1,
            last_ticks: 2,
        }
    }

    /// Little but tags, with no wrong call, no buffer filled and the shortest period, so that sends are near and most of
    /// their replies are kept.
    fn of_tags(d: &Dice) -> Taste {
        Taste { quirks: 0, fills: false, tags: 85, clocks: &[3], ..Taste::new(d) }
    }

    /// Little but readings in volts, the same way, on several channels.
    fn of_volts(d: &Dice) -> Taste {
        let channels = d.of(&[&[1, 2, 3, 4][..], &[1, 2, 3, 4], &[1, 3], &[2, 4]]).to_vec();
        Taste { quirks: 1, fills: false, tags: 2, volts: 85, clocks: &[3], channels, ..Taste::new(d) }
    }

    /// Little but downloads, the same way.
    fn of_downloads(d: &Dice) -> Taste {
        Taste { volts: 0, downloads: 85, ..Taste::of_volts(d) }
    }

    /// Little but what the last tick did, with all periods.
    fn of_last_ticks(d: &Dice) -> Taste {
        Taste { quirks: 2, volts: 0, downloads: 0, last_ticks: 80, pauses: 40, ..Taste::new(d) }
    }

    /// Many acts around roles, and some of every other kind.
    fn of_roles(d: &Dice) -> Taste {
        Taste { tags: 10, volts: 10, downloads: 10, roles: 40, ..Taste::of_volts(d) }
    }
}

pub fn word(d: &Dice, t: &Taste, last: bool) -> u32 {
    let mut w = d.below(65_536);
    if last {
        w |= 1 << 31;
    }
    if d.chance(t.pauses) {
        w |= 1 << (16 + d.below(5));
        if d.chance(15) {
            w |= 1 << (16 + d.below(5));
        }
    }
    if d.chance(20) {
        // bits that mean nothing
        w |= (d.roll() as u32) & 0x7FE0_0000;
    }
    w
}

/// A function into a user's buffer.
pub fn load(world: &mut World, d: &Dice, t: &Taste, c: u32, user: u32, buffer: u32) {
    let n = world.board().n;
    let most = n.min(d.of(&[1, 2, 3, 4, 6, 16]));
    let ends = d.chance(t.ends);
    for index in 0..most {
        let w = word(d, t, ends && index + 1 == most);
        world.put(Op::Set { c, user, buffer, index, word: w }, d);
    }
}

/// The start delay (k = 0) or resume k delay of a user.
pub fn delay(world: &mut World, d: &Dice, t: &Taste, c: u32, k: u32, user: u32) {
    let at = BASE * c + 0x40 + 0x20 * k + 4 * (user - 1);
    let ticks = d.of(&[0, 0, 9, 10, 20, 30, d.below(t.delays), d.below(t.delays)]);
    world.put(Op::Write(at + 2, ticks as u16), d);
    if d.chance(4) {
        // a high byte: no send comes of it unless the ticks are many
        world.put(Op::Write(at, d.of(&[0, 1, 0xFF00, 0x0100])), d);
    }
}

/// A channel's registers, words and delays, and mostly its arming.
fn prepare(world: &mut World, d: &Dice, t: &Taste, c: u32) {
    world.put(Op::Write(BASE * c + 0x0A, d.of(t.clocks)), d);
    world.put(Op::Write(BASE * c + 0x14, d.of(&[0x15, 0x15, 0x55, d.below(65_536) as u16])), d);
    for offset in (0x20..=0x2C).step_by(2) {
        if d.chance(85) {
            let active = if d.chance(92) { 0x100 } else { 0 };
            let code = d.of(&t.codes) as u16;
            world.put(Op::Write(BASE * c + offset, active | code | if d.chance(5) { 0xFE00 } else { 0 }), d);
        }
    }
    world.put(Op::Write(BASE * c, d.of(&[0xFFFF, 0xFFFF, d.below(65_536) as u16, 0])), d);
    for _ in 0..1 + d.below(t.users.min(3)) {
        let user = 1 + d.below(t.users);
        load(world, d, t, c, user, 1);
        if d.chance(50) {
            load(world, d, t, c, user, 2);
        }
    }
    for _ in 0..d.below(5) {
        let user = 1 + d.below(t.users);
        let k = d.below(5);
        delay(world, d, t, c, k, user);
    }
    if d.chance(95) {
        world.put(Op::Arm(c), d);
    }
}

/// A reply: mostly well framed with the right CRC.
pub fn reply(d: &Dice) -> u64 {
    let aux = d.of(&[0, 0, d.below(256) as u8]);
    let good = frame(d.of(&[0x15, d.below(256) as u8]), d.below(65_536) as u16, aux);
    match d.weighed(&[78, 12, 2, 2, 2, 2, 2]) {
        0 => good,
        1 => good ^ 4 << d.below(40),
        2 => good ^ 1,
        3 => good ^ 2,
        4 => good | 1 << 42,
        5 => good | 1 << 43,
        _ => d.roll() & 0xFFFF_FFFF_FFFF,
    }
}

/// Ticks around the channel's next send.
pub fn ticks(d: &Dice, t: &Taste, p: &Peek) -> Op {
    let most = if t.clocks.len() == 1 { 400 } else { 4_000 };
    let wait = (p.wait as u32).min(10_000);
    let n = match d.weighed(&[40, 15, 15, 25, 5]) {
        0 => wait,
        1 => wait.saturating_sub(1),
        2 => wait + 1,
        3 => 1 + d.below(35),
        _ => 1 + d.below(if d.chance(50) { 100 } else { most }),
    };
    Op::Ticks(n.clamp(1, 10_000))
}

pub fn story(world: &mut World, d: &Dice, acts: u32) {
    story_of(world, d, &Taste::new(d), acts);
}

pub fn story_of_tags(world: &mut World, d: &Dice, acts: u32) {
    story_of(world, d, &Taste::of_tags(d), acts);
}

pub fn story_of_volts(world: &mut World, d: &Dice, acts: u32) {
    story_of(world, d, &Taste::of_volts(d), acts);
}

pub fn story_of_downloads(world: &mut World, d: &Dice, acts: u32) {
    story_of(world, d, &Taste::of_downloads(d), acts);
}

pub fn story_of_roles(world: &mut World, d: &Dice, acts: u32) {
    story_of(world, d, &Taste::of_roles(d), acts);
}

pub fn story_of_last_ticks(world: &mut World, d: &Dice, acts: u32) {
    story_of(world, d, &Taste::of_last_ticks(d), acts);
}

fn story_of(world: &mut World, d: &Dice, t: &Taste, acts: u32) {
    world.put(Op::Write(0x22, d.of(&[1, 3, 7, 0xFFFF])), d);
    world.put(Op::Write(0x26, d.of(&[0xF0, 0xFFFF, 0x10, d.below(65_536) as u16])), d);
    for &c in &t.channels {
        prepare(world, d, t, c);
    }
    for _ in 0..acts {
        act(world, d, t);
        if world.is_script() && d.chance(1) {
            ramps(world, d, 5);
        }
        if world.is_script() && d.chance(2) {
            reopen(world, d);
            for &c in &t.channels {
                prepare(world, d, t, c);
            }
        }
    }
}

/// An opening that is refused, in one of the ways there are.
fn misfit(d: &Dice, n: u32, m: u32) -> Op {
    match d.below(9) {
        0 => Op::Open { n: 0, m, setpoints: 0, readbacks: 8 * m },
        1 => Op::Open { n, m: 0, setpoints: 64 * n, readbacks: 0 },
        2 => Op::Open { n, m, setpoints: 64 * n - 1, readbacks: 8 * m },
        3 => Op::Open { n, m, setpoints: 64 * n, readbacks: 8 * m - 1 },
        4 => Op::Open { n, m, setpoints: 0, readbacks: 0 },
        5 => Op::Open { n: 1_048_577, m, setpoints: 64, readbacks: 8 * m },
        6 => Op::Open { n, m: 8_388_609, setpoints: 64 * n, readbacks: 8 },
        // 64 × N and 8 × M that come to 0 in 32 bits
        7 => Op::Open { n: 1 << 26, m: 1 << 29, setpoints: 0, readbacks: 0 },
        _ => Op::Open { n: 1 << 20, m: 1 << 23, setpoints: 2048, readbacks: 512 },
    }
}

/// Another opening, half the time after one that is refused and a few calls on the closed board.
fn reopen(world: &mut World, d: &Dice) {
    let (n, m) = (d.of(DEPTHS_N), d.of(DEPTHS_M));
    let bad = misfit(d, n, m);
    if d.chance(50) {
        world.put(bad, d);
        for _ in 0..d.below(6) {
            let c = 1 + d.below(4);
            let op = d.of(&[
                Op::Arm(c), Op::Read(BASE * c + 0x0E), Op::Read(0x28), Op::Write(BASE * c + 8, 4), Op::Write(BASE * c + 8, 1),
                Op::Set { c, user: 1, buffer: 1, index: 0, word: 1 }, Op::Reply(c, 3), Op::Reply(c, 2), Op::Ticks(3), Op::Event(1),
                Op::User(2), Op::Level, Op::Retired { c, length: true, lent: 0 }, Op::Retired { c, length: true, lent: 6 },
                Op::Retired { c, length: false, lent: 0 }, Op::Disarm(c), Op::Write(BASE * c + 0xFC, 1), Op::Write(BASE * c + 0xFC, 2),
                Op::Write(BASE * c + 0xE0, 0x0315), Op::Read(BASE * c + 0xE0), Op::Read(BASE * c + 0x0C),
                Op::Write(BASE * c + 8, 8), Op::Write(BASE * c + 0x2C, 0x101), Op::Read(BASE * c + 0x2C), Op::Volts { c, lent: 0 },
                Op::LastTick { c, lent: 0 }, Op::Download { c, lent: 0 }, Op::Portion { c, first: 0, length: d.below(2), is_length: true, lent: d.of(&[0, 0, 6]) },
            ]);
            world.put(op, d);
        }
    }
    world.put(Op::Open { n, m, setpoints: 64 * n, readbacks: 8 * m }, d);
}
