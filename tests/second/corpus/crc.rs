//! A run file and a script of every entry of the list of remainders (document 02, request 5): every Frame ID in setpoint
//! frames, in command frames, and in replies to both. No two bytes have the same entry, so with the other fields the same
//! each entry is met at each of the four bytes.

use super::dice::Dice;
use super::story::BASE;
use super::world::{Op, World};
use crate::frame::frame;

const DATA: u16 = 0x1234;
const AUXILIARY: u8 = 0xA5;
/// The CRC among a frame's bits.
const CRC: u64 = 0xFF << 2;

pub fn every_entry(mut world: World) -> Vec<u8> {
    setpoints(&mut world);
    commands(&mut world);
    world.bytes
}

fn put(world: &mut World, ops: &[Op]) {
    ops.iter().for_each(|op| world.put(*op, &Dice::new(0)));
}

/// A function for each Frame ID. Group End before the next retires its readbacks, and a script shows them. The wrong CRC
/// of a reply would be right if the data's low byte came first.
fn setpoints(world: &mut World) {
    let set = Op::Set { c: 1, user: 1, buffer: 1, index: 0, word: 1 << 31 | DATA as u32 };
    put(world, &[set, Op::Write(BASE + 0x0A, 3), Op::Arm(1)]);
    for id in 0..=255 {
        let retired = Op::Retired { c: 1, length: false, lent: 0 };
        put(world, &[Op::Write(BASE + 0x14, id as u16), Op::Write(BASE + 8, 5), retired, Op::Ticks(10)]);
        let (right, low_first) = (frame(id, DATA, 0), frame(id, DATA.swap_bytes(), 0));
        replies(world, 1, [right, right & !CRC | low_first & CRC]);
    }
}

/// One bit of a reply's wrong CRC is wrong.
fn commands(world: &mut World) {
    put(world, &[Op::Arm(2), Op::Write(2 * BASE + 0xE2, DATA)]);
    for id in 0..=255 {
        let fields = u16::from_be_bytes([AUXILIARY, id]);
        put(world, &[Op::Write(2 * BASE + 0xE0, fields), Op::Write(2 * BASE + 0xFC, 1), Op::Ticks(1)]);
        let right = frame(id, DATA, AUXILIARY);
        replies(world, 2, [right, right ^ 4 << id % 8]);
    }
}

/// A read of 02 tells after each if its CRC is wrong.
fn replies(world: &mut World, c: u32, replies: [u64; 2]) {
    for reply in replies {
        put(world, &[Op::Reply(c, reply), Op::Read(BASE * c + 2)]);
    }
}
