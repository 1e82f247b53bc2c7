//! Scenes of one call, by a role that may make it or may not.

use super::Turn;
use crate::corpus::world::{Op, World};

pub const COUNT: u32 = 22;

/// The scene of this number.
pub fn scene(world: &mut World, t: &Turn, number: u32) {
    match number {
        0 => setpoint(world, t),
        1 => register(world, t),
        2 => arm(world, t),
        3 => disarm(world, t),
        4 => reply(world, t),
        5 => status(world, t, 2),
        6 => status(world, t, 4),
        7 => missing_count(world, t),
        8 => voltages(world, t),
        9 => retired(world, t),
        10 => download(world, t),
        11 => portion(world, t),
        12 => main_register(world, t),
        13 => main_status(world, t),
        14 => user(world, t),
        15 => ticks(world, t),
        16 => event(world, t),
        17 => reset(world, t),
        18 => start(world, t),
        19 => switch(world, t),
        20 => last_tick(world, t),
        _ => command(world, t),
    }
}

/// The word is sent, or the one before it.
fn setpoint(world: &mut World, t: &Turn) {
    t.load(world, &[0]);
    t.ask(world, t.word(world, 0, t.d.below(65_536)));
    t.examine(world, Op::Arm(t.c));
    t.examine(world, Op::Write(t.at() + 8, 1));
    t.examine(world, Op::Ticks(10));
}

fn register(world: &mut World, t: &Turn) {
    let at = t.at() + t.d.of(&[0x14, 0x20, 0x42, 0xE0]);
    t.ask(world, Op::Write(at, t.d.below(65_536) as u16));
    t.examine(world, Op::Read(at));
    t.ask(world, Op::Read(at));
}

/// A Start after it works, or not.
fn arm(world: &mut World, t: &Turn) {
    t.load(world, &[0]);
    t.ask(world, Op::Arm(t.c));
    t.examine(world, Op::Write(t.at() + 8, 1));
    t.examine(world, Op::Ticks(10));
}

/// The function runs on, or not.
fn disarm(world: &mut World, t: &Turn) {
    t.start(world, &[0, 0]);
    t.ask(world, Op::Disarm(t.c));
    t.examine(world, Op::Ticks(10));
}

/// It is retired, or not.
fn reply(world: &mut World, t: &Turn) {
    t.start(world, &[0, 0]);
    t.examine(world, Op::Write(t.at() + 8, 5));
    t.examine(world, Op::Ticks(10));
    t.ask(world, t.reply());
    t.examine(world, Op::Write(t.at() + 8, 4));
    t.examine(world, Op::Retired { c: t.c, length: true, lent: 0 });
    t.examine(world, Op::Retired { c: t.c, length: false, lent: 0 });
}

/// RUN is read away, or not.
fn status(world: &mut World, t: &Turn, offset: u32) {
    t.start(world, &[0]);
    t.ask(world, Op::Read(t.at() + offset));
    t.examine(world, Op::Read(t.at() + offset));
}

/// And so the shortfall of six after a send without replies.
fn missing_count(world: &mut World, t: &Turn) {
    t.start(world, &[0, 0]);
    t.examine(world, Op::Ticks(20));
    t.ask(world, Op::Read(t.at() + 0x0C));
    t.examine(world, Op::Read(t.at() + 0x0C));
}

fn voltages(world: &mut World, t: &Turn) {
    t.start(world, &[0, 0]);
    t.examine(world, Op::Write(t.at() + 8, 5));
    t.examine(world, Op::Ticks(10));
    for _ in 0..4 {
        t.examine(world, t.reply());
    }
    t.ask(world, Op::Volts { c: t.c, lent: 0 });
    t.examine(world, Op::Volts { c: t.c, lent: 0 });
}

fn retired(world: &mut World, t: &Turn) {
    t.retire(world);
    for length in [true, false] {
        t.ask(world, Op::Retired { c: t.c, length, lent: 0 });
    }
    t.examine(world, Op::Retired { c: t.c, length: false, lent: 0 });
}

/// Its portions are answered, or 12.
fn download(world: &mut World, t: &Turn) {
    t.retire(world);
    t.ask(world, Op::Download { c: t.c, lent: 0 });
    t.examine(world, Op::Portion { c: t.c, first: 0, length: 1, is_length: true, lent: 0 });
}

fn portion(world: &mut World, t: &Turn) {
    t.retire(world);
    t.examine(world, Op::Download { c: t.c, lent: 0 });
    for is_length in [true, false] {
        t.ask(world, Op::Portion { c: t.c, first: 0, length: 1, is_length, lent: 0 });
    }
    t.examine(world, Op::Portion { c: t.c, first: 0, length: 1, is_length: false, lent: 0 });
}

fn main_register(world: &mut World, t: &Turn) {
    for offset in [0x22, 0x24, 0x26] {
        t.ask(world, Op::Write(offset, t.d.below(65_536) as u16));
        t.ask(world, Op::Read(offset));
        t.examine(world, Op::Read(offset));
    }
}

/// "D3 an event came" is read away, or not; and the level, which a channel's RUN raises.
fn main_status(world: &mut World, t: &Turn) {
    t.examine(world, Op::Event(t.d.below(256) as u8));
    for offset in [0x28, 0x2A] {
        t.ask(world, Op::Read(offset));
        t.examine(world, Op::Read(offset));
    }
    t.examine(world, Op::Write(0x22, 5));
    t.examine(world, Op::Write(0x26, 0xF0));
    t.examine(world, Op::Write(t.at(), 0xFFFF));
    t.start(world, &[0]);
    t.ask(world, Op::Level);
    t.examine(world, Op::Level);
}

/// Main's statuses show the user.
fn user(world: &mut World, t: &Turn) {
    let user = world.board().user;
    t.ask(world, Op::User(user % 8 + 1));
    t.examine(world, Op::Read(0x28));
    t.examine(world, Op::User(user));
}

/// The ticks after them bring the first word, or the second.
fn ticks(world: &mut World, t: &Turn) {
    t.start(world, &[0, 0]);
    t.ask(world, Op::Ticks(t.d.of(&[10, 10, 10, 3, 25])));
    t.examine(world, Op::Ticks(10));
}

/// Start, or not; and "D3 an event came".
fn event(world: &mut World, t: &Turn) {
    t.load(world, &[0]);
    t.examine(world, Op::Arm(t.c));
    t.examine(world, Op::Write(t.at() + 0x20, 0x1C0 + t.c as u16));
    for offset in [0x28, 0x2A] {
        t.examine(world, Op::Read(offset));
        t.ask(world, Op::Event(0xC0 + t.c as u8));
        t.examine(world, Op::Read(offset));
        t.examine(world, Op::Ticks(10));
    }
}

/// Frame ID is 0, or what it was.
fn reset(world: &mut World, t: &Turn) {
    t.examine(world, Op::Write(t.at() + 0x14, 0x15));
    t.ask(world, Op::Write(t.at() + 6, t.d.of(&[1, 0xFFFF])));
    t.examine(world, Op::Read(t.at() + 0x14));
}

/// By command.
fn start(world: &mut World, t: &Turn) {
    t.load(world, &[0]);
    t.examine(world, Op::Arm(t.c));
    t.ask(world, Op::Write(t.at() + 8, 1));
    t.examine(world, Op::Ticks(10));
}

/// A user's setpoint buffers switch at Group End, or not.
fn switch(world: &mut World, t: &Turn) {
    t.ask(world, Op::Write(t.at() + 0x30 + 2 * t.d.below(8), 1));
    t.examine(world, Op::Write(t.at() + 8, 4));
    t.examine(world, Op::Read(t.at() + 0x0E));
}

/// Of a function that waits, of one that sent, and of a channel that was reset.
fn last_tick(world: &mut World, t: &Turn) {
    t.start(world, &[0]);
    for op in [Op::Ticks(9), Op::Ticks(1), Op::Write(t.at() + 6, 1)] {
        t.examine(world, op);
        t.ask(world, Op::LastTick { c: t.c, lent: 0 });
        t.examine(world, Op::LastTick { c: t.c, lent: 0 });
    }
}

/// A command frame leaves, or not.
fn command(world: &mut World, t: &Turn) {
    t.load(world, &[0]);
    t.examine(world, Op::Arm(t.c));
    t.ask(world, Op::Write(t.at() + 0xFC, 1));
    t.examine(world, Op::Ticks(1));
}
