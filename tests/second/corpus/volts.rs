//! Acts around readings in volts (document 02, request 7), of scripts alone: replies to a send, fewer than six or more,
//! kept, damaged, lost or refused, and what may come between them and a voltages call.

mod after;

use self::after::after;
use super::acts::Scene;
use super::commands::group_end;
use super::dice::Dice;
use super::missing::send;
use super::story::{story_of_volts, DEPTHS_N};
use super::tag::load;
use super::world::{Op, World};
use crate::frame::frame;

/// Those with which a buffer is full before the sixth reply, and deeper ones.
pub const DEPTHS_AROUND_SIX: &[u32] = &[1, 2, 3, 4, 5, 6, 7, 8, 12, 13, 40, 64];

/// Numbers of no channel, some with the low bits of one.
const NO_CHANNEL: &[u32] = &[0, 5, 255, 6, 9, 132];

/// The script number `i`.
pub fn volts_script(d: &Dice, i: u32) -> Vec<u8> {
    let m = DEPTHS_AROUND_SIX[i as usize % DEPTHS_AROUND_SIX.len()];
    let header = [d.of(DEPTHS_N), m, d.roll() as u32, 0xFFFF].map(u32::to_le_bytes).concat();
    let mut world = World::script(header, d.of(&[0, 0, 3]));
    story_of_volts(&mut world, d, 20);
    world.bytes
}

/// Sends, replies to them, and voltages calls.
pub fn volts(world: &mut World, s: &Scene) {
    let d = s.d;
    if s.now(world).stored >= world.board().capacity() && d.chance(60) {
        // there is no room for readings until it ends
        world.put(group_end(world, s), d);
        ask(world, s);
    }
    if d.chance(20) {
        no_send(world, s);
    }
    for _ in 0..1 + d.below(3) {
        before(world, s);
        if !send(world, s) {
            break;
        }
        readings(world, s, d.of(&[0, 1, 2, 3, 4, 5, 6, 6, 6, 7, 8]));
        for _ in 0..d.of(&[0, 1, 1, 2]) {
            after(world, s);
            ask(world, s);
        }
    }
}

/// A voltages call, now and then of another channel too, or of none. A lent code means nothing.
pub fn ask(world: &mut World, s: &Scene) {
    let d = s.d;
    let lent = || d.of(&[0, 0, 0, 0, 1, 2, 3, 4, 255]);
    world.put(Op::Volts { c: s.c, lent: lent() }, d);
    if d.chance(20) {
        world.put(Op::Volts { c: 1 + (s.c + d.below(3)) % 4, lent: lent() }, d);
    }
    if d.chance(3) {
        world.put(Op::Volts { c: d.of(NO_CHANNEL), lent: lent() }, d);
    }
}

/// A reply, with a wrong CRC in so many percent. Few codes are met by chance.
fn reading(d: &Dice, wrong: u32) -> u64 {
    let any = d.below(65_536) as u16;
    let data = d.of(&[0, 1, 0x7FFF, 0x8000, 0xFFFF, any, any, any, any, any, any, any]);
    let good = frame(d.of(&[0x15, 0x15, d.below(256) as u8]), data, d.of(&[0, 0, 0, d.below(256) as u8]));
    if d.chance(wrong) { good ^ 4 << d.below(40) } else { good }
}

/// So many replies, now and then with one that is refused before them and a voltages call after them.
fn readings(world: &mut World, s: &Scene, count: u32) {
    let d = s.d;
    let wrong = d.of(&[0, 0, 20, 20, 50, 100]);
    for _ in 0..count {
        match d.below(25) {
            0 => world.put_refused(Op::Reply(s.c, reading(d, wrong)), d),
            1 => world.put(Op::Reply(s.c, reading(d, wrong) ^ d.of(&[1, 2, 3, 1 << 42, 1 << 43])), d),
            _ => {}
        }
        world.put(Op::Reply(s.c, reading(d, wrong)), d);
        if d.chance(25) {
            ask(world, s);
        }
    }
    ask(world, s);
}

/// What a send may be like.
fn before(world: &mut World, s: &Scene) {
    let d = s.d;
    match d.weighed(&[60, 14, 8, 8, 10]) {
        0 => {}
        1 => {
            let hold = 1 << d.of(&[16, 17, 18, 19, 20, 20, 31]);
            load(world, s, if d.chance(70) { s.user } else { 1 + d.below(8) }, &d.of(&[[hold, 1, 2], [0, hold, 1], [0, 0, 0]]));
        }
        // setpoint with read, or another Frame ID
        2 => world.put(Op::Write(s.at() + 0x14, d.of(&[0x15, 0x15, 0x55, 0])), d),
        // tagged
        3 => world.put(Op::Write(s.at() + 8, 8), d),
        // a first word, in the same group or the next
        _ => world.put(Op::Write(s.at() + 8, d.of(&[1, 5])), d),
    }
}

/// Replies with no send since idle: unasked while the channel is idle or in a start delay, or a command frame's.
fn no_send(world: &mut World, s: &Scene) {
    let d = s.d;
    world.put(Op::Disarm(s.c), d);
    world.put(Op::Arm(s.c), d);
    if d.chance(40) {
        world.put(Op::Write(s.at() + 0xFC, 1), d);
        world.put(Op::Ticks(1), d);
    }
    if d.chance(60) {
        readings(world, s, d.of(&[3, 4, 6]));
    }
    world.put(Op::Write(s.at() + 8, 1), d);
    if d.chance(60) {
        readings(world, s, d.of(&[1, 3, 4, 6]));
    }
    if send(world, s) {
        readings(world, s, d.of(&[3, 5, 6]));
    }
}
