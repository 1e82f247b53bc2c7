//! Acts around command frames (document 02, request 1): asked for in every state of a channel, with
//! what may come before the tick, and with the replies after it.

use super::acts::{event_for, Scene};
use super::story::{reply, ticks, BASE};
use super::world::{Op, World};

/// A write to FC: D0, D1, both or neither, now and then with bits that mean nothing. D1 more often where D0 is refused.
fn ask(world: &World, s: &Scene) -> Op {
    let p = s.now(world);
    let often = if p.armed && p.idle { [1, 1, 1, 1, 2, 2] } else { [2, 2, 2, 2, 1, 1] };
    Op::Write(s.at() + 0xFC, s.d.of(&[&often[..], &[1, 2, 3, 0, 0xFFFC, 0xFFFD, 0xFFFE, 0xFFFF]].concat()))
}

/// E0 or E2: Frame IDs that supplies know, commands that they know, or any.
fn field(s: &Scene) -> Op {
    let any = s.d.below(65_536) as u16;
    if s.d.chance(50) {
        Op::Write(s.at() + 0xE0, s.d.of(&[0x0A, 0x4A, 0x0315, any, any]))
    } else {
        Op::Write(s.at() + 0xE2, s.d.of(&[0, 0x4000, 0xC000, any, any]))
    }
}

pub fn group_end(world: &World, s: &Scene) -> Op {
    if s.d.chance(50) {
        event_for(world, s, 0x2A)
    } else {
        Op::Write(s.at() + 8, s.d.of(&[4, 4, 4, 5, 5, 7]))
    }
}

/// A command frame, from its fields to the reads of what came back.
pub fn command(world: &mut World, s: &Scene) {
    let d = s.d;
    for _ in 0..d.below(3) {
        world.put(field(s), d);
    }
    world.put(ask(world, s), d);
    for _ in 0..d.of(&[0, 0, 0, 1, 1, 2, 3]) {
        between(world, s);
    }
    if s.now(world).command_awaits_group_end && d.chance(75) {
        if d.chance(15) {
            world.put(many_ticks(s), d);
        }
        world.put(group_end(world, s), d);
        for _ in 0..d.of(&[0, 0, 0, 1, 2]) {
            between(world, s);
        }
    }
    if d.chance(92) {
        let op = if d.chance(70) { Op::Ticks(d.of(&[1, 1, 1, 2])) } else { many_ticks(s) };
        world.put(op, d);
    }
    answered(world, s);
}

/// Ticks in one record, so many that a function which begins with them sends.
fn many_ticks(s: &Scene) -> Op {
    Op::Ticks(20 + s.d.below(s.d.of(&[20, 80, 80, 400, 400, 4_000])))
}

/// What may come between the asking and the tick.
fn between(world: &mut World, s: &Scene) {
    let d = s.d;
    let op = match d.weighed(&[16, 24, 6, 8, 3, 7, 12, 12, 6, 9]) {
        0 => field(s),
        1 => ask(world, s),
        2 => Op::Disarm(s.c),
        // of a disarmed channel too
        3 if !s.now(world).armed && d.chance(60) => Op::Disarm(s.c),
        3 => Op::Arm(s.c),
        4 => Op::Write(s.at() + 6, 1),
        5 => Op::User(1 + d.below(s.t.users)),
        6 if d.chance(50) => event_for(world, s, 0x20),
        6 => Op::Write(s.at() + 8, 1),
        7 => group_end(world, s),
        8 => Op::Write(BASE * d.of(&s.t.channels) + 0xFC, d.of(&[1, 2])),
        _ => register(s),
    };
    world.put(op, d);
    if matches!(op, Op::Disarm(_)) && d.chance(60) {
        // was it dropped, or does it wait for the channel to be armed?
        world.put(Op::Arm(s.c), d);
    }
}

/// A read of one of E0–FE, FC too.
fn register(s: &Scene) -> Op {
    let any = 0xE0 + 2 * s.d.below(16);
    Op::Read(s.at() + s.d.of(&[0xFE, 0xFE, 0xE4, 0xE6, any, any, any, any]))
}

/// Replies, up to the seventh and past it, with what may come between them; then what is kept of them.
fn answered(world: &mut World, s: &Scene) {
    let d = s.d;
    for _ in 0..d.of(&[0, 1, 2, 3, 6, 7, 8, 9]) {
        world.put(Op::Reply(s.c, reply(d)), d);
        if d.chance(6) {
            between(world, s);
        }
        if d.chance(3) {
            world.put(ticks(d, s.t, &s.now(world)), d);
        }
    }
    for _ in 0..d.of(&[0, 1, 2, 4]) {
        world.put(if d.chance(80) { register(s) } else { Op::Read(d.of(&[s.at() + 2, s.at() + 4, 0x28, 0x2A])) }, d);
    }
}

/// A command frame while the readback buffer is full: its channel idle, but with no Group End.
pub fn command_with_full_buffer(world: &mut World, s: &Scene) {
    let d = s.d;
    if s.t.users > 1 && d.chance(50) {
        world.put(Op::User(s.user % s.t.users + 1), d);
    } else {
        world.put(Op::Disarm(s.c), d);
        world.put(Op::Arm(s.c), d);
    }
    world.put(Op::Write(s.at() + 0xFC, 1), d);
    world.put(Op::Ticks(1), d);
    answered(world, s);
}
