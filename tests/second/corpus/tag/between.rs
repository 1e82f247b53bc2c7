//! What may come between a tag and the next send, and drops the tag or leaves it.

use super::{ask, replies, resume, some_ticks};
use crate::corpus::acts::{event_for, Scene};
use crate::corpus::story::BASE;
use crate::corpus::world::{Op, World};

pub fn between(world: &mut World, s: &Scene) {
    let d = s.d;
    let p = s.now(world);
    let for_drop = if p.idle { 60 } else { 30 };
    let for_pause = if p.pause > 0 { 40 } else { 0 };
    let [for_refusal, for_opening] = if world.is_script() { [24, 3] } else { [0, 0] };
    match d.weighed(&[for_drop, 14, 14, 20, 10, 12, 24, for_pause, for_refusal, for_opening]) {
        0 => dropped(world, s, s.c),
        1 => {
            let other = 1 + (s.c + d.below(3)) % 4;
            dropped(world, s, other);
        }
        2 => user_change(world, s),
        3 => command(world, s),
        4 => {
            let op = if d.chance(30) { event_for(world, s, 0x20) } else { Op::Write(s.at() + 8, d.of(&[1, 1, 9])) };
            world.put(op, d);
            replies(world, s, 2);
        }
        5 => {
            some_ticks(world, s);
            replies(world, s, 1);
        }
        6 => register(world, s),
        7 => resume(world, s),
        8 => refused(world, s),
        _ => opening(world, s),
    }
}

/// What drops a tag of a channel.
fn dropped(world: &mut World, s: &Scene, c: u32) {
    let d = s.d;
    // an idle channel seldom has a tag to drop
    let is_idle = world.board().peek(c as usize - 1).idle;
    match d.weighed(if is_idle { &[15, 15, 35, 35] } else { &[25, 25, 25, 25] }) {
        0 if c == s.c => {
            let op = group_end_event(world, s);
            world.put(op, d);
        }
        0 | 1 => world.put(Op::Write(BASE * c + 8, d.of(&[4, 4, 5])), d),
        2 => world.put(Op::Disarm(c), d),
        _ => {
            world.put(Op::Write(BASE * c + 6, 1), d);
            if d.chance(30) {
                world.put(Op::Read(BASE * c + 0x2C), d);
            }
            world.put(Op::Write(BASE * c + 0x0A, 3), d);
        }
    }
}

/// The event of Group End, half the time by a code that does nothing else.
fn group_end_event(world: &mut World, s: &Scene) -> Op {
    if s.d.chance(50) {
        world.put(Op::Write(s.at() + 0x2A, 0x1EA), s.d);
    }
    event_for(world, s, 0x2A)
}

/// What would drop a tag, but is refused.
fn refused(world: &mut World, s: &Scene) {
    let op = match s.d.below(3) {
        0 => group_end_event(world, s),
        1 => Op::Write(s.at() + 8, s.d.of(&[4, 4, 5])),
        _ => Op::Write(s.at() + 6, 1),
    };
    world.put_refused(op, s.d);
}

/// The board opened again, with the same depths and the shortest period.
fn opening(world: &mut World, s: &Scene) {
    let (n, m) = (world.board().n, world.board().m);
    world.put(Op::Open { n, m, setpoints: 64 * n, readbacks: 8 * m }, s.d);
    for c in 1..=4 {
        world.put(Op::Write(BASE * c + 0x0A, 3), s.d);
    }
}

fn user_change(world: &mut World, s: &Scene) {
    if s.d.chance(60) {
        world.put(Op::User(s.user % s.t.users.max(2) + 1), s.d);
    }
    if s.d.chance(50) {
        world.put(Op::User(s.user), s.d);
    }
}

/// A command frame by D0 while the channel is idle, or by D1 after a Group End that a tag comes with; and replies to it.
fn command(world: &mut World, s: &Scene) {
    let d = s.d;
    let p = s.now(world);
    if p.armed && p.idle && d.chance(70) {
        world.put(Op::Write(s.at() + 0xFC, 1), d);
    } else {
        world.put(Op::Write(s.at() + 0xFC, 2), d);
        world.put(Op::Write(s.at() + 8, d.of(&[0x0C, 0x0C, 0x0D, 4])), d);
    }
    world.put(Op::Ticks(1), d);
    replies(world, s, 3);
    world.put(Op::Read(s.at() + 0xE4), d);
}

/// Register 2C, the tag again, and what changes nothing.
fn register(world: &mut World, s: &Scene) {
    let d = s.d;
    let op = match d.below(5) {
        0 => Op::Write(s.at() + 0x2C, d.of(&[0, 0x100, 0xFFFF, d.below(65_536) as u16])),
        1 => Op::Read(s.at() + 0x2C),
        2 => Op::Arm(s.c),
        3 => Op::Write(s.at() + 6, d.of(&[0, 0xFFFE])),
        _ => return ask(world, s),
    };
    world.put(op, d);
}
