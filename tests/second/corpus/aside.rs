//! Calls that idle no channel, end no group, and bring neither a send nor a reply.

use super::acts::{retired, Scene};
use super::world::{Op, World};

pub fn aside(world: &mut World, s: &Scene) {
    let d = s.d;
    let op = match d.below(12) {
        0 => Op::User(world.board().user),
        1 => Op::User(d.of(&[0, 9])),
        2 => Op::Arm(s.c),
        3 => Op::Write(s.at() + 8, 8),
        4 => Op::Write(s.at() + 6, d.of(&[0, 2, 0xFFFE])),
        5 => Op::Write(s.at() + 0xFC, d.of(&[1, 2, 2])),
        6 => Op::Read(s.at() + d.of(&[2, 4])),
        7 => Op::Read(s.at() + 0x0C),
        8 => Op::Write(s.at() + d.of(&[0, 0x14, 0x24, 0x42, 0xE0]), d.below(65_536) as u16),
        9 => inactive_word(world, s),
        // most mean nothing to the channel
        10 => Op::Event(d.below(256) as u8),
        _ => return retired(world, s),
    };
    world.put(op, d);
}

/// A setpoint for the buffer that is not active.
fn inactive_word(world: &World, s: &Scene) -> Op {
    let active = 1 + (s.now(world).active >> (s.user - 1) & 1) as u32;
    Op::Set { c: s.c, user: s.user, buffer: 3 - active, index: 0, word: s.d.below(65_536) }
}
