//! What may come between two portions, and ends the download or leaves it open.

use super::{open, portion, within, NO_CHANNEL};
use crate::corpus::acts::{event_for, Scene};
use crate::corpus::aside::aside;
use crate::corpus::missing::send;
use crate::corpus::story::{reply, BASE, DEPTHS_N};
use crate::corpus::tag::{load, resume};
use crate::corpus::world::{Op, World};

pub fn between(world: &mut World, s: &Scene, count: u32) {
    let d = s.d;
    match d.weighed(&[30, 20, 24, 10, 14, 40, 16, 8, 8, 3]) {
        0 => next_function(world, s),
        1 => ended(world, s, count),
        2 => beside(world, s),
        3 => reset(world, s, s.c),
        4 => idled(world, s),
        5 => left(world, s),
        6 => refused(world, s),
        7 => command(world, s),
        8 => paused(world, s),
        _ => opening(world, s, count),
    }
}

/// The next send, and replies to it, often more than there is room for.
pub fn next_function(world: &mut World, s: &Scene) {
    if send(world, s) {
        for _ in 0..s.d.of(&[1, 1, 2, 3, 6, 7]) {
            world.put(Op::Reply(s.c, reply(s.d)), s.d);
        }
    }
}

/// Group End of the channel, in any of its states, once or twice.
fn ended(world: &mut World, s: &Scene, count: u32) {
    let d = s.d;
    match d.below(5) {
        0 => world.put(Op::Disarm(s.c), d),
        1 => {
            world.put(Op::Disarm(s.c), d);
            world.put(Op::Arm(s.c), d);
        }
        2 => {
            send(world, s);
        }
        _ => next_function(world, s),
    }
    if d.chance(25) {
        return several(world, s, count);
    }
    let op = group_end_of(world, s);
    world.put(op, d);
    if d.chance(40) {
        within(world, s, count);
        // the buffers are then as they were before
        world.put(Op::Write(s.at() + 8, 4), d);
    }
}

/// Group End, by an event that does nothing else, or by command, now and then with Start.
fn group_end_of(world: &mut World, s: &Scene) -> Op {
    if s.d.chance(50) {
        let code = 0xD0 + s.c as u16;
        world.put(Op::Write(s.at() + 0x2A, 0x100 | code), s.d);
        Op::Event(code as u8)
    } else {
        Op::Write(s.at() + 8, s.d.of(&[4, 4, 5, 0x0C]))
    }
}

/// Group End of two channels by one event, with a download open on both.
fn several(world: &mut World, s: &Scene, count: u32) {
    let d = s.d;
    let other = other(world, s);
    world.put(Op::Download { c: other.c, lent: 0 }, d);
    let of_other = super::retired_count(world, &other);
    for at in [s.at(), other.at()] {
        world.put(Op::Write(at + 0x2A, 0x1DD), d);
    }
    world.put(Op::Event(0xDD), d);
    within(world, &other, of_other);
    within(world, s, count);
}

fn other<'a>(world: &World, s: &'a Scene) -> Scene<'a> {
    s.of_channel(world, 1 + (s.c + s.d.below(3)) % 4)
}

/// What is done on another channel.
fn beside(world: &mut World, s: &Scene) {
    let d = s.d;
    let other = other(world, s);
    match d.below(7) {
        0 | 1 => {
            let op = group_end_of(world, &other);
            world.put(op, d);
        }
        2 => reset(world, s, other.c),
        3 => world.put(Op::Disarm(other.c), d),
        4 | 5 => {
            open(world, &other);
            let count = super::retired_count(world, &other);
            within(world, &other, count);
        }
        _ => next_function(world, &other),
    }
}

/// A reset; the shortest period again after it.
fn reset(world: &mut World, s: &Scene, c: u32) {
    let d = s.d;
    if c == s.c && d.chance(40) {
        send(world, s);
    }
    world.put(Op::Write(BASE * c + 6, d.of(&[1, 1, 3, 0xFFFF])), d);
    world.put(Op::Write(BASE * c + 0x0A, 3), d);
}

/// The channel idled without a Group End, and perhaps started again.
fn idled(world: &mut World, s: &Scene) {
    let d = s.d;
    let user = world.board().user;
    match d.below(3) {
        0 => world.put(Op::Disarm(s.c), d),
        1 => world.put(Op::User(user % 8 + 1), d),
        _ => {
            world.put(Op::User(user % 8 + 1), d);
            world.put(Op::User(user), d);
        }
    }
    if d.chance(50) {
        world.put(Op::Arm(s.c), d);
        world.put(Op::Write(s.at() + 8, 1), d);
    }
}

/// What else leaves the download as it is.
fn left(world: &mut World, s: &Scene) {
    let d = s.d;
    let op = match d.below(19) {
        0..=10 => return aside(world, s),
        11 | 12 => Op::Write(s.at() + 0xFC, 1),
        13 => Op::Volts { c: s.c, lent: 0 },
        14 => Op::Download { c: d.of(NO_CHANNEL), lent: 0 },
        15 | 16 => Op::Ticks(d.of(&[20, 35, 60])),
        // a Start, or one more
        17 => Op::Write(s.at() + 8, 1),
        _ => return open(world, s),
    };
    world.put(op, d);
}

/// What would end it or go on beside it, but is refused.
fn refused(world: &mut World, s: &Scene) {
    let op = match s.d.below(4) {
        0 => event_for(world, s, 0x2A),
        1 => Op::Write(s.at() + 8, s.d.of(&[4, 5])),
        2 => Op::Write(s.at() + 6, 1),
        _ => Op::Ticks(s.d.of(&[1, 20])),
    };
    world.put_refused(op, s.d);
}

/// A command frame by D0, and replies to it.
fn command(world: &mut World, s: &Scene) {
    let d = s.d;
    world.put(Op::Disarm(s.c), d);
    world.put(Op::Arm(s.c), d);
    world.put(Op::Write(s.at() + 0xFC, 1), d);
    world.put(Op::Ticks(1), d);
    for _ in 0..d.below(4) {
        world.put(Op::Reply(s.c, reply(d)), d);
    }
}

/// A function that pauses, and its Resume.
fn paused(world: &mut World, s: &Scene) {
    load(world, s, s.user, &[1 << (16 + s.d.below(5)), 1, 2]);
    if send(world, s) {
        resume(world, s);
    }
}

/// Another opening of the board, half the time after one that is refused.
fn opening(world: &mut World, s: &Scene, count: u32) {
    let d = s.d;
    if d.chance(50) {
        world.put(Op::Open { n: 0, m: 1, setpoints: 0, readbacks: 8 }, d);
        within(world, s, count);
        portion(world, s, 0);
        open(world, s);
        portion(world, s, 0);
        within(world, s, d.below(2));
        world.put(Op::Download { c: d.of(NO_CHANNEL), lent: 0 }, d);
    }
    let (n, m) = (d.of(DEPTHS_N), d.of(super::DEPTHS));
    world.put(Op::Open { n, m, setpoints: 64 * n, readbacks: 8 * m }, d);
    within(world, s, count.min(m));
    // the longest period after an opening, the shortest now
    for c in 1..=4 {
        world.put(Op::Write(BASE * c + 0x0A, 3), d);
    }
}
