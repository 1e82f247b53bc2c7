//! The acts of a story: one or several calls that suit the state, or spite it.

use super::commands::{command, command_with_full_buffer};
use super::dice::Dice;
use super::download::{download, glance};
use super::end_word::{end_word, fill};
use super::last_tick::{self, last_tick};
use super::missing::missing;
use super::roles::role;
use super::story::{delay, load, reply, ticks, word, Taste, BASE};
use super::tag::tag;
use super::volts::{ask, volts};
use super::world::{lent_two, Op, World};
use crate::board::Peek;
use crate::role::Role::Examiner;

/// What an act is made with: the dice, the story's taste, and a channel as it is.
pub struct Scene<'a> {
    pub d: &'a Dice,
    pub t: &'a Taste,
    pub c: u32,
    p: Peek,
    pub user: u32,
}

impl Scene<'_> {
    /// Where the channel's registers start.
    pub fn at(&self) -> u32 {
        BASE * self.c
    }
    /// The same scene with another channel.
    pub fn of_channel(&self, world: &World, c: u32) -> Scene<'_> {
        Scene { c, p: world.board().peek(c as usize - 1), ..*self }
    }
    /// The channel as it has become.
    pub fn now(&self, world: &World) -> Peek {
        world.board().peek(self.c as usize - 1)
    }
}

pub fn act(world: &mut World, d: &Dice, t: &Taste) {
    if d.chance(t.quirks) {
        return quirk(world, d, t);
    }
    let c = d.of(&t.channels);
    let s = Scene { d, t, c, p: world.board().peek(c as usize - 1), user: world.board().user };
    if of_taste(world, &s) {
        return;
    }
    match choice(&s) {
        0 => world.put(if d.chance(93) { Op::Arm(c) } else { Op::Disarm(c) }, d),
        1 => start(world, &s),
        2 => world.put(ticks(d, t, &s.p), d),
        3 => replies(world, &s),
        4 => group_end(world, &s),
        5 => resume(world, &s),
        6 => new_words(world, &s),
        7 => interruption(world, &s),
        8 => statuses(world, &s),
        9 => any_register(world, &s),
        10 => command(world, &s),
        11 => missing(world, &s),
        _ => end_word(world, &s),
    }
    if world.is_script() && d.chance(15) {
        ask(world, &s);
    }
    if world.is_script() && d.chance(5) {
        glance(world, &s);
    }
    if world.is_script() && d.chance(10) {
        last_tick::ask(world, &s);
    }
}

/// An act around what the taste has in percent, if it is so drawn. All but tags are of scripts alone.
fn of_taste(world: &mut World, s: &Scene) -> bool {
    let (t, is_script) = (s.t, world.is_script());
    let acts: [(u32, bool, fn(&mut World, &Scene)); 5] = [
        (t.tags, true, tag), (t.volts, is_script, volts), (t.downloads, is_script, download), (t.roles, is_script, role),
        (t.last_ticks, is_script, last_tick),
    ];
    for (percent, is_open, act) in acts {
        if is_open && s.d.chance(percent) {
            act(world, s);
            return true;
        }
    }
    false
}

/// By what suits the channel's state.
fn choice(s: &Scene) -> usize {
    let (d, p) = (s.d, &s.p);
    if !p.armed {
        d.weighed(&[50, 0, 8, 6, 4, 0, 8, 6, 10, 12, 16, 3, 2])
    } else if p.idle {
        d.weighed(&[2, 50, 8, 4, 4, 0, 10, 4, 12, 8, 25, 6, 4])
    } else if p.pause > 0 {
        d.weighed(&[1, 4, 24, 18, 4, 35, 3, 2, 5, 4, 6, 5, 3])
    } else {
        d.weighed(&[1, 4, 36, 25, 9, 2, 5, 3, 8, 4, 7, 5, 3])
    }
}

/// A code that the named event register of the channel answers to, if it is in the taste.
pub fn event_for(world: &World, s: &Scene, offset: u32) -> Op {
    let mut board = world.board().clone();
    match board.read(Examiner, s.at() + offset) {
        Ok(v) if v & 0x100 != 0 => Op::Event(v as u8),
        _ if s.d.chance(50) => Op::Write(s.at() + offset, 0x100 | s.d.of(&s.t.codes) as u16),
        _ => Op::Event(s.d.of(&s.t.codes)),
    }
}

/// Start, by event or command, now and then with other command bits.
fn start(world: &mut World, s: &Scene) {
    let bits = s.d.of(&[1, 1, 1, 5, 3, 7, 9, 0x0F, 0xFFF9]);
    let op = if s.d.chance(50) { event_for(world, s, 0x20) } else { Op::Write(s.at() + 8, bits) };
    world.put(op, s.d);
}

/// Replies, up to the seventh.
fn replies(world: &mut World, s: &Scene) {
    for _ in 0..s.d.of(&[1, 1, 2, 3, 6, 7, 8]) {
        world.put(Op::Reply(s.c, reply(s.d)), s.d);
    }
    if s.t.fills && !s.p.idle {
        fill(world, s);
        if s.d.chance(20) {
            command_with_full_buffer(world, s);
        }
    }
}

fn group_end(world: &mut World, s: &Scene) {
    let d = s.d;
    let op = if d.chance(60) { event_for(world, s, 0x2A) } else { Op::Write(s.at() + 8, d.of(&[4, 4, 5, 6, 7, 0x0C, 0x0D])) };
    if d.chance(40) {
        let who = if d.chance(60) { s.user } else { 1 + d.below(8) };
        world.put(Op::Write(s.at() + 0x30 + 2 * (who - 1), d.of(&[1, 1, 0xFFFF, 2])), d);
        if d.chance(20) {
            world.put(Op::Write(s.at() + 0x30 + 2 * (who - 1), d.of(&[0, 0xFFFE])), d);
        }
    }
    world.put(op, d);
    if world.is_script() {
        retired(world, s);
    }
}

pub fn retired(world: &mut World, s: &Scene) {
    let c = if s.d.chance(90) { s.c } else { s.d.of(&[0, 1, 2, 3, 4, 5, 255]) };
    let lent = if s.d.chance(55) { 0 } else { lent_two(s.d) };
    world.put(Op::Retired { c, length: true, lent }, s.d);
    world.put(Op::Retired { c, length: false, lent }, s.d);
}

/// Resume: the pause's own, or another; half the time by a code that does nothing else.
fn resume(world: &mut World, s: &Scene) {
    let d = s.d;
    let k = if d.chance(75) { s.p.pause } else { 1 + d.below(5) };
    let own = 0xE0 + k as u16;
    if (1..=4).contains(&k) && d.chance(60) {
        delay(world, d, s.t, s.c, k, s.user);
    }
    if (1..=4).contains(&k) && d.chance(50) {
        world.put(Op::Write(s.at() + 0x20 + 2 * k, 0x100 | own), d);
    }
    let op = match k {
        0 | 5 => Op::Write(s.at() + 8, d.of(&[2, 2, 2, 0x0A])),
        k => event_for(world, s, 0x20 + 2 * k),
    };
    world.put(op, d);
    // and the ticks around the end of its delay, with a further Resume now and then
    for _ in 0..d.below(4) {
        world.put(ticks(d, s.t, &s.now(world)), d);
        if d.chance(15) {
            world.put(op, d);
        }
    }
}

/// New words, mostly for the buffer that is not active.
fn new_words(world: &mut World, s: &Scene) {
    let d = s.d;
    let user = if d.chance(70) { s.user } else { 1 + d.below(s.t.users) };
    let active = 1 + (s.p.active >> (user - 1) & 1) as u32;
    let buffer = if d.chance(80) { 3 - active } else { active };
    if d.chance(30) {
        load(world, d, s.t, s.c, user, buffer);
    } else {
        let index = d.below(world.board().n.max(1));
        let w = word(d, s.t, false);
        world.put(Op::Set { c: s.c, user, buffer, index, word: w }, d);
    }
}

/// A user change, a disarm, a reset, an event.
fn interruption(world: &mut World, s: &Scene) {
    let d = s.d;
    let op = match d.weighed(&[45, 10, 15, 8, 12]) {
        0 => Op::User(if d.chance(80) { 1 + d.below(s.t.users) } else { s.user }),
        1 => Op::Disarm(s.c),
        2 => Op::Write(s.at() + 6, d.of(&[1, 1, 3, 2, 0, 0xFFFE])),
        3 => Op::Event(d.below(256) as u8),
        _ => Op::Event(d.of(&s.t.codes)),
    };
    world.put(op, d);
    if matches!(op, Op::Write(_, v) if v & 1 == 1) && d.chance(60) {
        // does a Start still work after the reset, and with which clock and words?
        if d.chance(50) {
            world.put(Op::Write(s.at() + 0x0A, 3), d);
        }
        world.put(Op::Write(s.at() + 8, 1), d);
        world.put(Op::Ticks(d.of(&[10, 20, 31])), d);
    }
}

/// Statuses, the copies in any order; the level before and after.
fn statuses(world: &mut World, s: &Scene) {
    for _ in 0..1 + s.d.below(3) {
        let at = s.at();
        let address = s.d.of(&[at + 2, at + 4, 0x28, 0x2A, at + 0x0C, at + 0x0E, at + 0x10, at + 0x12]);
        world.put(if s.d.chance(12) { Op::Level } else { Op::Read(address) }, s.d);
    }
    if world.is_script() && s.d.chance(40) {
        retired(world, s);
    }
}

/// Any address: mapped or not, odd or even, Main, a channel's or past them.
fn address(d: &Dice, t: &Taste) -> u32 {
    let c = d.of(&t.channels);
    match d.weighed(&[60, 10, 10, 8, 6, 6]) {
        0 => BASE * c + 2 * d.below(0x82),
        1 => 0x20 + d.below(0x10),
        2 => BASE * c + d.below(0x100),
        3 => BASE * d.below(7) + 2 * d.below(0x82),
        4 => d.below(0x800),
        _ => d.below(65_536),
    }
}

/// A register read or written, and in a script now and then a word of a pool set.
fn any_register(world: &mut World, s: &Scene) {
    let (d, t) = (s.d, s.t);
    let op = match d.weighed(&[25, 25, 10, 8, 8, 6]) {
        0 => Op::Read(address(d, t)),
        1 => {
            // not the channel that is under way, or it would seldom end well
            let a = address(d, t);
            let calm = a % BASE == 0x06 && d.chance(80);
            Op::Write(a, if calm { 0 } else { d.of(&[0, 1, 0x100, 0xFFFF, d.below(65_536) as u16]) })
        }
        2 => Op::Write(s.at() + 0x0A, d.of(t.clocks)),
        3 => Op::Write(s.at(), d.of(&[0xFFFF, 0, d.below(65_536) as u16])),
        4 => Op::Write(0x22 + 2 * d.below(3), d.of(&[0xFFFF, 0xF0, 7, 3, d.below(65_536) as u16])),
        _ => Op::Write(s.at() + 0x14, d.of(&[0x15, d.below(65_536) as u16])),
    };
    world.put(op, d);
    if world.is_script() && d.chance(12) {
        let readbacks = d.chance(25);
        let most = if readbacks { 8 * world.board().m } else { 64 * world.board().n };
        world.put(Op::Poke { readbacks, at: d.below(most.max(1)), word: word(d, t, false) }, d);
    }
}

/// What no honest caller asks.
fn quirk(world: &mut World, d: &Dice, t: &Taste) {
    let c = d.of(&[0, 5, 255, d.of(&t.channels), d.of(&t.channels)]);
    let n = world.board().n;
    let op = match d.weighed(&[10, 4, 4, 6, 10, 10, 6, 14]) {
        0 => {
            let (user, buffer) = (d.of(&[0, 1, 8, 9, u32::MAX, 1]), d.of(&[0, 1, 2, 3, 1, 2]));
            let index = d.of(&[0, n.wrapping_sub(1), n, u32::MAX, 0x8000_0000]);
            Op::Set { c, user, buffer, index, word: d.roll() as u32 }
        }
        1 => Op::Arm(c),
        2 => Op::Disarm(c),
        3 => Op::Reply(c, reply(d)),
        4 => Op::User(d.of(&[0, 9, 255, 256, 257, 0x0001_0001, u32::MAX, 1, 8])),
        5 => Op::Write(BASE * d.of(&t.channels) + 0x0A, d.of(&[0, 1, 2, 3, 4, 5, 0x0103, 0x8000, 0xFFFF, 0x0100])),
        6 if world.is_script() => Op::Write(d.of(&[0x2800, 0x1_0022, 0x1_0808, 0xFFFF_FFFE, 0x8000_0808]), d.below(8) as u16),
        6 => Op::Write(d.of(&[0x2800, 0x2808, 0xFFFF, 0x27FE]), d.below(8) as u16),
        _ => Op::Raw(odd_record(d, world.is_script())),
    };
    world.put(op, d);
}

/// A record of noise that makes few ticks.
fn odd_record(d: &Dice, is_script: bool) -> [u8; 16] {
    let mut r = d.bytes();
    if is_script {
        // kinds past the list make no call
        r[0] = 20 + d.below(236) as u8;
        return r;
    }
    r[0] = d.of(&[0, 1, 3, 4, 5, 5, 8, 9, d.below(256) as u8]);
    match d.below(4) {
        // b just past the ranges
        0 => r[4..8].copy_from_slice(&d.of(&[65_536u32, 256, 10_001, 0, 2, 1 << 31]).to_le_bytes()),
        1 => r[6..8].copy_from_slice(&[0, 0]),
        // ticks within the range must not be many
        _ if r[0] == 5 => r[4..8].copy_from_slice(&d.of(&[0u32, 10_001, 65_537, 1 << 24]).to_le_bytes()),
        _ => {}
    }
    r
}
