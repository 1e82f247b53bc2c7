//! What may come between a reply and a voltages call, and loses the readings or leaves them.

use super::{ask, readings, DEPTHS_AROUND_SIX, NO_CHANNEL};
use crate::corpus::acts::{event_for, Scene};
use crate::corpus::aside::aside;
use crate::corpus::commands::group_end;
use crate::corpus::missing::send;
use crate::corpus::story::{BASE, DEPTHS_N};
use crate::corpus::tag::resume;
use crate::corpus::world::{Op, World};

pub fn after(world: &mut World, s: &Scene) {
    let d = s.d;
    let for_pause = if s.now(world).pause > 0 { 40 } else { 0 };
    match d.weighed(&[14, 22, 36, 14, 10, 18, 6, 6, for_pause, 4]) {
        0 => restart(world, s),
        1 => idled(world, s),
        2 => aside(world, s),
        3 => refused(world, s),
        4 => {
            // a repeat, or the next word
            send(world, s);
        }
        5 => beside(world, s),
        6 => many_sends(world, s),
        7 => many_ticks(world, s),
        8 => {
            resume(world, s);
            readings(world, s, d.below(5));
            send(world, s);
        }
        _ => opening(world, s),
    }
}

/// Start while the function runs: more replies in the new delay, and its first word.
fn restart(world: &mut World, s: &Scene) {
    let d = s.d;
    let op = if d.chance(30) { event_for(world, s, 0x20) } else { Op::Write(s.at() + 8, 1) };
    world.put(op, d);
    readings(world, s, d.below(5));
    if d.chance(60) {
        send(world, s);
    }
}

/// The channel idled in one of the four ways, and perhaps started again.
fn idled(world: &mut World, s: &Scene) {
    let d = s.d;
    match d.below(4) {
        0 => world.put(group_end(world, s), d),
        1 => world.put(Op::Disarm(s.c), d),
        2 => {
            let user = world.board().user;
            world.put(Op::User(user % 8 + 1), d);
            if d.chance(40) {
                world.put(Op::User(user), d);
            }
        }
        _ => world.put(Op::Write(s.at() + 6, 1), d),
    }
    if d.chance(60) {
        ask(world, s);
    }
    world.put(Op::Write(s.at() + 0x0A, 3), d);
    if d.chance(60) {
        world.put(Op::Arm(s.c), d);
        world.put(Op::Write(s.at() + 8, 1), d);
    }
}

/// What would lose them, but is refused.
fn refused(world: &mut World, s: &Scene) {
    let d = s.d;
    let op = match d.below(4) {
        0 => event_for(world, s, 0x2A),
        1 => Op::Write(s.at() + 8, d.of(&[4, 5])),
        2 => Op::Write(s.at() + 6, 1),
        _ => {
            // of ticks that are refused, the one on which a send is due would lose them
            let p = s.now(world);
            if !p.idle && (2..=1_000).contains(&p.wait) {
                world.put(Op::Ticks(p.wait as u32 - 1), d);
            }
            Op::Ticks(d.of(&[1, 20]))
        }
    };
    world.put_refused(op, d);
}

/// Another channel's send, readings and idling.
fn beside(world: &mut World, s: &Scene) {
    let d = s.d;
    let other = s.of_channel(world, 1 + (s.c + d.below(3)) % 4);
    // its ticks may bring this channel's next send too
    if d.chance(50) && send(world, &other) {
        readings(world, &other, d.of(&[0, 3, 6]));
    }
    match d.below(4) {
        0 => world.put(Op::Write(other.at() + 8, 4), d),
        1 => world.put(Op::Disarm(other.c), d),
        2 => {
            world.put(Op::Write(other.at() + 6, 1), d);
            world.put(Op::Write(other.at() + 0x0A, 3), d);
        }
        _ => {}
    }
}

/// Many sends in one record of ticks.
fn many_sends(world: &mut World, s: &Scene) {
    let p = s.now(world);
    if !p.idle && p.wait <= 100 {
        world.put(Op::Ticks(p.wait as u32 + s.d.of(&[100, 150])), s.d);
    }
}

/// Many ticks of a longer period in one record, and no send.
fn many_ticks(world: &mut World, s: &Scene) {
    let d = s.d;
    world.put(Op::Write(s.at() + 0x0A, 2), d);
    if send(world, s) {
        readings(world, s, d.of(&[3, 6]));
        world.put(Op::Ticks(d.of(&[20, 50, 99])), d);
    }
    world.put(Op::Write(s.at() + 0x0A, 3), d);
}

/// Another opening, half the time after one that is refused.
fn opening(world: &mut World, s: &Scene) {
    let d = s.d;
    if d.chance(50) {
        world.put(Op::Open { n: 0, m: 1, setpoints: 0, readbacks: 8 }, d);
        ask(world, s);
        world.put(Op::Volts { c: d.of(NO_CHANNEL), lent: 0 }, d);
    }
    let (n, m) = (d.of(DEPTHS_N), d.of(DEPTHS_AROUND_SIX));
    world.put(Op::Open { n, m, setpoints: 64 * n, readbacks: 8 * m }, d);
    ask(world, s);
    // the longest period after an opening, the shortest now
    for c in 1..=4 {
        world.put(Op::Write(BASE * c + 0x0A, 3), d);
    }
}
