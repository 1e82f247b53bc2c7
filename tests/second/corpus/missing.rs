//! Acts around readbacks that never came (document 02, request 2): sends with any number of replies after them, what may
//! come between one send and the next, and reads of what was counted.

use super::acts::{event_for, Scene};
use super::story::reply;
use super::world::{Op, World};

/// Sends with replies after them, mostly too few, and reads of what was counted.
pub fn missing(world: &mut World, s: &Scene) {
    let d = s.d;
    if d.chance(60) {
        world.put(frame_id(s), d);
    }
    for _ in 0..1 + d.below(4) {
        if !send(world, s) {
            break;
        }
        replies(world, s);
        if d.chance(60) {
            between(world, s);
        }
    }
    if d.chance(12) {
        silence(world, s);
    }
    counted(world, s);
}

/// Frame ID: setpoint with read, one without, one bit off, or any.
fn frame_id(s: &Scene) -> Op {
    let any = s.d.below(65_536) as u16;
    Op::Write(s.at() + 0x14, s.d.of(&[0x15, 0x15, 0x15, 0x0115, 0x55, 0x14, 0x95, any]))
}

/// The channel's next send, from a Start if it is idle; none is made if it is far off.
pub fn send(world: &mut World, s: &Scene) -> bool {
    if !s.now(world).armed {
        world.put(Op::Arm(s.c), s.d);
    }
    if s.now(world).idle {
        world.put(Op::Write(s.at() + 8, 1), s.d);
    }
    let p = s.now(world);
    let is_near = !p.idle && p.wait <= 1_000;
    if is_near {
        world.put(Op::Ticks((p.wait as u32).max(1)), s.d);
    }
    is_near
}

fn replies(world: &mut World, s: &Scene) {
    for _ in 0..s.d.of(&[0, 0, 1, 2, 3, 4, 5, 6, 6, 7]) {
        world.put(Op::Reply(s.c, reply(s.d)), s.d);
    }
}

/// What may come between two sends.
fn between(world: &mut World, s: &Scene) {
    let d = s.d;
    match d.weighed(&[18, 18, 14, 10, 12, 8, 6, 4]) {
        0 => world.put(frame_id(s), d),
        1 => restart(world, s),
        2 => idled(world, s),
        3 => command_between(world, s),
        4 => counted(world, s),
        // D4 enabled or not
        5 => world.put(Op::Write(s.at(), d.of(&[0x10, 0x10, 0xFFFF, 0xFFEF, 0])), d),
        // it stays what it was
        6 => world.put(Op::User(s.user), d),
        _ => world.put(Op::Write(s.at() + 0x0C, d.of(&[0, 1, 0xFFFF])), d),
    }
}

/// Start while the function runs, with replies in its new delay.
fn restart(world: &mut World, s: &Scene) {
    let op = if s.d.chance(30) { event_for(world, s, 0x20) } else { Op::Write(s.at() + 8, 1) };
    world.put(op, s.d);
    for _ in 0..s.d.below(4) {
        world.put(Op::Reply(s.c, reply(s.d)), s.d);
    }
}

/// The channel idled in one of the four ways, and a send after it.
fn idled(world: &mut World, s: &Scene) {
    let d = s.d;
    match d.weighed(&[30, 30, 25, 15]) {
        0 => world.put(Op::Write(s.at() + 8, d.of(&[4, 5])), d),
        1 => world.put(Op::Disarm(s.c), d),
        2 => {
            world.put(Op::User(s.user % 8 + 1), d);
            world.put(Op::User(s.user), d);
        }
        _ => {
            world.put(Op::Write(s.at() + 6, 1), d);
            world.put(Op::Write(s.at() + 0x0A, 3), d);
            world.put(Op::Write(s.at() + 0x14, 0x15), d);
        }
    }
    if d.chance(50) {
        counted(world, s);
    }
    send(world, s);
    if d.chance(60) {
        counted(world, s);
    }
}

/// A function ended and the next begun, with a command frame and its replies between them.
fn command_between(world: &mut World, s: &Scene) {
    let d = s.d;
    world.put(Op::Write(s.at() + 0xE0, d.of(&[0x15, 0x15, 0x0315, 0x0A])), d);
    world.put(Op::Write(s.at() + 0xFC, 2), d);
    world.put(Op::Write(s.at() + 8, 5), d);
    world.put(Op::Ticks(d.of(&[1, 1, 3, 9])), d);
    replies(world, s);
    send(world, s);
    counted(world, s);
}

/// Many sends in one record of ticks, with no reply.
fn silence(world: &mut World, s: &Scene) {
    let p = s.now(world);
    if !p.idle && p.wait <= 100 {
        world.put(Op::Ticks(s.d.of(&[100, 250, 440, 600])), s.d);
    }
}

/// 0C and the statuses, in any order.
fn counted(world: &mut World, s: &Scene) {
    let at = s.at();
    for _ in 0..s.d.of(&[1, 1, 2, 3]) {
        world.put(Op::Read(s.d.of(&[at + 0x0C, at + 0x0C, at + 0x0C, at + 2, at + 4, 0x28, 0x2A])), s.d);
    }
}
