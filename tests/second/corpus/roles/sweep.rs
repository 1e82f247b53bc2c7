//! Scripts that are the same for any seed: every scene by each role on each channel, with what its call needs alone and with
//! all but that; and every register read and written so.

use super::hidden::{self, hidden};
use super::openings::{changes, openings};
use super::refused::{no_channel, of_main, otherwise};
use super::scenes::{self, scene};
use super::Turn;
use crate::corpus::dice::Dice;
use crate::corpus::story::BASE;
use crate::corpus::world::{Op, World};
use crate::map::{readable, writable};
use crate::role::Role;

const DEPTHS: [u32; 2] = [4, 8];

fn script() -> World {
    World::script_of_examiner([DEPTHS[0], DEPTHS[1], 9, 0xFFFF].map(u32::to_le_bytes).concat())
}

/// An opening that gives the role these permissions, and the other role all but them.
fn open(world: &mut World, d: &Dice, role: Role, own: u8) {
    let access = if role == Role::Candidate { [own, !own] } else { [!own, own] };
    world.put(Op::OpenFor { n: DEPTHS[0], m: DEPTHS[1], access }, d);
}

/// Read or write of a channel alone, both, all but one, none, and all.
fn each_access(c: u32) -> [u8; 7] {
    let (read, write) = (1 << (c - 1), 0x10 << (c - 1));
    [read, write, read | write, !read, !write, 0, 0xFF]
}

/// A script for each channel and role, with a name.
pub fn sweep_scripts() -> Vec<(String, Vec<u8>)> {
    let each = (1..=4).flat_map(|c| [(c, "candidate", Role::Candidate), (c, "watcher", Role::Watcher)]);
    each.map(|(c, name, role)| (format!("{name}-{c}"), sweep(role, c).bytes)).collect()
}

fn sweep(role: Role, c: u32) -> World {
    let d = &Dice::new(c as u64);
    let (mut world, turn) = (script(), Turn { d, role, c });
    for own in each_access(c) {
        open(&mut world, d, role, own);
        scenes(&mut world, &turn);
        otherwise(&mut world, &turn);
        no_channel(&mut world, &turn);
        of_main(&mut world, &turn);
        changes(&mut world, &turn);
        // with both permissions of the channel, or all, its frames are shown as with the read permission alone
        if role == Role::Candidate && own.count_ones() != 2 && own != 0xFF {
            (0..hidden::COUNT).for_each(|number| hidden(&mut world, &turn, number));
        }
    }
    openings(&mut world, d);
    world.put(Op::OpenFor { n: DEPTHS[0], m: DEPTHS[1], access: [0, 0] }, d);
    scenes(&mut world, &Turn { role: Role::Examiner, ..turn });
    world
}

fn scenes(world: &mut World, turn: &Turn) {
    (0..scenes::COUNT).for_each(|number| scene(world, turn, number));
}

/// Every register of a channel, read and written with that permission alone and with all but it.
pub fn register_script() -> Vec<u8> {
    let (mut world, d) = (script(), Dice::new(0));
    for (role, c) in [(Role::Candidate, 2), (Role::Watcher, 3)] {
        for own in each_access(c) {
            open(&mut world, &d, role, own);
            readable().iter().for_each(|offset| world.put_as(role, Op::Read(BASE * c + offset), &d));
            writable().iter().for_each(|offset| world.put_as(role, Op::Write(BASE * c + offset, 0), &d));
        }
    }
    world.bytes
}
