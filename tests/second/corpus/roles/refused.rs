//! Calls that are refused for another reason, by a role that may make them or may not.

use super::Turn;
use crate::corpus::story::BASE;
use crate::corpus::world::{Op, World};

/// Reasons that are checked after 13, and then those that are checked before it.
pub fn otherwise(world: &mut World, t: &Turn) {
    t.retire(world);
    t.start(world, &[0, 0]);
    let portion = |first, length| Op::Portion { c: t.c, first, length, is_length: true, lent: 0 };
    t.ask(world, portion(0, 1));
    t.examine(world, Op::Download { c: t.c, lent: 0 });
    t.ask(world, portion(1, 1));
    for op in after_role(world, t) {
        t.ask(world, op);
    }
    before_role(world, t);
}

/// Wrong way, no clock, function on; no user, no buffer, no index, live buffer; bad framing.
fn after_role(world: &World, t: &Turn) -> Vec<Op> {
    let (at, n) = (t.at(), world.board().n);
    let word = |user, buffer, index| Op::Set { c: t.c, user, buffer, index, word: 1 };
    let mut ops: Vec<Op> = [0x02, 0x04, 0x0C, 0x10].iter().map(|offset| Op::Write(at + offset, 1)).collect();
    ops.extend([Op::Write(at + 0x0A, t.d.of(&[4, 0x103, 0xFFFF])), Op::Write(at + 0xFC, 1)]);
    ops.extend([0x06, 0x08, 0x30, 0xFC].map(|offset| Op::Read(at + offset)));
    ops.extend([word(t.d.of(&[0, 9]), 1, 0), word(1, t.d.of(&[0, 3]), 0), word(1, 1, t.d.of(&[n, u32::MAX]))]);
    ops.extend([t.word(world, 0, 1), Op::Reply(t.c, t.d.of(&[2, 1, 1 << 42 | 3, 1 << 43 | 3]))]);
    ops
}

/// Addresses that are not in the map, and wrong lengths.
fn before_role(world: &mut World, t: &Turn) {
    let unmapped = t.d.of(&[0x16, 0x2E, 0x03, 0x100, 0x7FE]);
    for at in [t.at() + unmapped, 5 * BASE + t.d.of(&[0x0E, 0x14]), t.d.of(&[0x10_0814, 0xFFFF_FFFE])] {
        t.ask(world, Op::Write(at, 1));
        t.ask(world, Op::Read(at));
    }
    let short = [
        Op::Write(t.at() + 0x14, 1), Op::Set { c: t.c, user: 1, buffer: 1, index: 0, word: 1 }, t.reply(),
        Op::Retired { c: t.c, length: true, lent: 0 },
        Op::Portion { c: t.c, first: 0, length: 1, is_length: true, lent: 0 },
    ];
    for op in short {
        world.put_refused_as(t.role, op, t.d);
    }
}

/// Calls that name no channel.
pub fn no_channel(world: &mut World, t: &Turn) {
    let c = t.d.of(&[0, 5, 255, 8 + t.c, 128 + t.c]);
    let ops = [
        Op::Set { c, user: 1, buffer: 1, index: 0, word: 1 }, Op::Arm(c), Op::Disarm(c), Op::Reply(c, 3),
        Op::Volts { c, lent: 0 }, Op::LastTick { c, lent: 0 }, Op::Retired { c, length: true, lent: 0 }, Op::Retired { c, length: false, lent: 0 },
        Op::Download { c, lent: 0 }, Op::Portion { c, first: 0, length: 0, is_length: true, lent: 0 },
    ];
    for op in ops {
        t.ask(world, op);
    }
}

/// Main, and what else is not of a channel: the examiner's, or not the watcher's.
pub fn of_main(world: &mut World, t: &Turn) {
    for at in [0x20, 0x23, 0x2C, 0x7FE] {
        t.ask(world, Op::Write(at, 1));
        t.ask(world, Op::Read(at));
    }
    for at in [0x28, 0x2A] {
        t.ask(world, Op::Write(at, 0xFFFF));
    }
    world.put_refused_as(t.role, Op::Write(t.d.of(&[0x22, 0x28, 0x20]), 1), t.d);
    t.ask(world, Op::User(t.d.of(&[0, 9, 257])));
    world.put_refused_as(t.role, Op::Event(1), t.d);
    world.put_refused_as(t.role, Op::Ticks(1), t.d);
    t.ask(world, Op::Ticks(0));
}
