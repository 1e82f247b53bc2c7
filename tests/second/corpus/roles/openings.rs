//! What gives permissions, and what leaves them.

use super::{Turn, DEPTHS, OTHERS};
use crate::corpus::dice::Dice;
use crate::corpus::story::{BASE, DEPTHS_N};
use crate::corpus::world::{permissions, Op, World};

/// A register read and one written by both roles, of a channel.
fn probe(world: &mut World, d: &Dice, c: u32) {
    for role in OTHERS {
        world.put_as(role, Op::Read(BASE * c + d.of(&[0x0E, 0x14, 0])), d);
        world.put_as(role, Op::Write(BASE * c + d.of(&[0x14, 0x42, 0xE2]), d.below(65_536) as u16), d);
    }
}

fn probe_all(world: &mut World, d: &Dice) {
    (1..=4).for_each(|c| probe(world, d, c));
}

/// Openings one after the other, some refused, each with permissions of its own, and what the roles then may.
pub fn openings(world: &mut World, d: &Dice) {
    probe_all(world, d);
    for _ in 0..1 + d.below(2) {
        let mut access = [permissions(d), permissions(d)];
        if d.chance(50) {
            access[1] = !access[0];
        }
        if d.chance(50) {
            world.put(Op::OpenFor { n: 0, m: d.of(DEPTHS), access }, d);
            probe_all(world, d);
            access = d.of(&[access, access.map(|permissions| !permissions), [permissions(d), permissions(d)]]);
        }
        world.put(Op::OpenFor { n: d.of(DEPTHS_N), m: d.of(DEPTHS), access }, d);
        probe_all(world, d);
    }
}

/// What leaves permissions as they are.
pub fn changes(world: &mut World, t: &Turn) {
    let (d, user) = (t.d, world.board().user);
    let event = 0xB0 + t.c as u8;
    let changes = [
        Op::Write(t.at() + 6, 1), Op::Write(t.at() + 8, 4), Op::Write(t.at() + 0x2A, 0x100 | event as u16), Op::Event(event),
        Op::User(user % 8 + 1), Op::Arm(t.c), Op::Ticks(25), Op::Disarm(t.c),
    ];
    for op in changes {
        t.examine(world, op);
        probe(world, d, t.c);
    }
}
