//! Scenes of ticks by the candidate: "a frame that a tick doesn't show still counts as sent", which calls of the examiner's
//! show after it.

use super::Turn;
use crate::corpus::world::{Op, World};
use crate::role::Role;

pub const COUNT: u32 = 14;

/// The scene of this number.
pub fn hidden(world: &mut World, t: &Turn, number: u32) {
    match number {
        0 => all_channels(world, t),
        1 => many(world, t),
        2 => next_word(world, t),
        3 => reply(world, t),
        4 => setpoint_count(world, t),
        5 => status(world, t),
        6 => main_bit(world, t),
        7 => shortfall(world, t),
        8 => voltages(world, t),
        9 => stored_word(world, t),
        10 => command(world, t),
        11 => tag(world, t),
        12 => last_tick(world, t),
        _ => commands(world, t),
    }
}

fn candidate_ticks(world: &mut World, t: &Turn, count: u32) {
    world.put_as(Role::Candidate, Op::Ticks(count), t.d);
}

/// All four send on one tick.
fn all_channels(world: &mut World, t: &Turn) {
    for c in 1..=4 {
        Turn { c, ..*t }.start(world, &[0, 0]);
    }
    candidate_ticks(world, t, 10);
    t.examine(world, Op::Ticks(10));
}

/// And many times in one record.
fn many(world: &mut World, t: &Turn) {
    for c in 1..=4 {
        Turn { c, ..*t }.start(world, &[0, 1 << 31]);
    }
    candidate_ticks(world, t, t.d.of(&[120, 200]));
    t.examine(world, Op::Ticks(10));
}

/// The word after it is the next.
fn next_word(world: &mut World, t: &Turn) {
    t.start(world, &[0, 0, 0]);
    candidate_ticks(world, t, t.d.of(&[10, 20, 13]));
    t.examine(world, Op::Ticks(10));
}

/// A reply is due.
fn reply(world: &mut World, t: &Turn) {
    t.start(world, &[0]);
    candidate_ticks(world, t, 10);
    t.examine(world, t.reply());
}

fn setpoint_count(world: &mut World, t: &Turn) {
    t.start(world, &[0, 0]);
    candidate_ticks(world, t, t.d.of(&[10, 20, 50]));
    t.examine(world, Op::Write(t.at() + 8, 4));
    t.examine(world, Op::Read(t.at() + 0x12));
}

/// A pause or the last word is latched in both statuses.
fn status(world: &mut World, t: &Turn) {
    for [first, second] in [[2, 4], [4, 2]] {
        t.start(world, &[1 << t.d.of(&[16, 17, 18, 19, 20, 31]), 0]);
        candidate_ticks(world, t, 10);
        t.examine(world, Op::Read(t.at() + first));
        t.examine(world, Op::Read(t.at() + second));
    }
}

/// And raises the channel's bit in Main, and the level.
fn main_bit(world: &mut World, t: &Turn) {
    t.examine(world, Op::Write(0x22, 5));
    t.examine(world, Op::Write(0x26, 0xF0));
    t.examine(world, Op::Write(t.at(), 0x4000));
    for shows in [Op::Level, Op::Read(0x28), Op::Read(0x2A)] {
        t.start(world, &[1 << 31]);
        t.examine(world, Op::Read(0x28));
        t.examine(world, Op::Read(0x2A));
        candidate_ticks(world, t, 10);
        t.examine(world, shows);
    }
}

/// A send that is not shown finds that the one before it has no replies.
fn shortfall(world: &mut World, t: &Turn) {
    t.start(world, &[0, 0, 0]);
    t.examine(world, Op::Ticks(10));
    candidate_ticks(world, t, t.d.of(&[10, 20]));
    t.examine(world, Op::Read(t.at() + 0x0C));
}

/// It has readings of its own.
fn voltages(world: &mut World, t: &Turn) {
    t.start(world, &[0, 0, 0]);
    t.examine(world, Op::Write(t.at() + 8, 5));
    t.examine(world, Op::Ticks(10));
    for _ in 0..4 {
        t.examine(world, t.reply());
    }
    candidate_ticks(world, t, 10);
    t.examine(world, Op::Volts { c: t.c, lent: 0 });
}

/// What is kept of a reply describes it, and not the first word before it.
fn stored_word(world: &mut World, t: &Turn) {
    t.start(world, &[0, 0, 0]);
    t.examine(world, Op::Write(t.at() + 8, 5));
    t.examine(world, Op::Ticks(10));
    candidate_ticks(world, t, 10);
    t.examine(world, t.reply());
    t.examine(world, Op::Write(t.at() + 8, 4));
    t.examine(world, Op::Retired { c: t.c, length: false, lent: 0 });
}

/// The channel armed and idle, a command frame before this one and a reply to it, so that FE is not 0.
fn ask_command(world: &mut World, t: &Turn) {
    t.load(world, &[0]);
    t.examine(world, Op::Arm(t.c));
    t.examine(world, Op::Write(t.at() + 0xE0, 0x0315));
    for op in [Op::Write(t.at() + 0xFC, 1), Op::Ticks(1), t.reply(), Op::Write(t.at() + 0xFC, 1)] {
        t.examine(world, op);
    }
}

/// A command frame leaves once, clears FE, and takes six replies, of which those to the one before are none.
fn command(world: &mut World, t: &Turn) {
    for (shows, times) in [(Op::Ticks(1), 1), (Op::Read(t.at() + 0xFE), 1), (t.reply(), 6)] {
        ask_command(world, t);
        candidate_ticks(world, t, 1);
        (0..times).for_each(|_| t.examine(world, shows));
    }
}

/// It uses a tag, which the send after it ends.
fn tag(world: &mut World, t: &Turn) {
    t.start(world, &[0, 0, 0]);
    t.examine(world, Op::Write(t.at() + 8, 0x0D));
    candidate_ticks(world, t, 10);
    t.examine(world, t.reply());
    t.examine(world, Op::Ticks(10));
    t.examine(world, t.reply());
    t.examine(world, Op::Write(t.at() + 8, 4));
    t.examine(world, Op::Retired { c: t.c, length: false, lent: 0 });
}

/// It is what the last tick did, be it a setpoint's frame or a command frame.
fn last_tick(world: &mut World, t: &Turn) {
    t.start(world, &[0]);
    t.examine(world, Op::Ticks(9));
    candidate_ticks(world, t, 1);
    t.examine(world, Op::LastTick { c: t.c, lent: 0 });
    t.load(world, &[0]);
    for op in [Op::Arm(t.c), Op::Ticks(1), Op::Write(t.at() + 0xFC, 1)] {
        t.examine(world, op);
    }
    candidate_ticks(world, t, 1);
    t.examine(world, Op::LastTick { c: t.c, lent: 0 });
}

/// Command frames of all channels on one tick.
fn commands(world: &mut World, t: &Turn) {
    for c in 1..=4 {
        ask_command(world, &Turn { c, ..*t });
    }
    candidate_ticks(world, t, t.d.of(&[1, 3]));
    t.examine(world, Op::Ticks(1));
}
