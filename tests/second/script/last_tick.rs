//! A script's records as the tally of last ticks sees them.

use super::record::Record;
use crate::answer::Answer;
use crate::board::Board;
use crate::last_tick::rows::Came;
use crate::last_tick::watch::{Asked, Before, Watch};

/// After a record, with the board before it.
pub fn step(watch: &mut Watch, r: &[u8], told: &Answer, before: Before, board: &Board) {
    let r = Record::new(r);
    if r.kind == 19 {
        let asked = Asked { c: r.c as u32, role: r.role, is_wrong_code: board.n > 0 && [1, 2].contains(&r.code) };
        return watch.ask(asked, told, board);
    }
    watch.step(came(r), told, before, board);
}

fn came(r: Record) -> Came {
    match r.kind {
        0 => Came::Open,
        1 => of_write(r.x, r.y),
        4 => Came::Arm,
        5 => Came::Disarm,
        9 => Came::Ticks(r.x & 0xFFFF),
        10 => Came::Event,
        11 => Came::User,
        _ => Came::Other,
    }
}

/// A write to a register, of a run file too.
pub fn of_write(address: u32, value: u32) -> Came {
    let c = address / 0x800;
    match address % 0x800 {
        _ if !(1..=4).contains(&c) => Came::Other,
        0x06 => Came::Reset(c as usize - 1, value & 1 == 1),
        0x08 => Came::Command,
        0xFC => Came::AskCommand,
        _ => Came::Other,
    }
}
