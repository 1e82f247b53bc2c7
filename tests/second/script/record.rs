//! A record of a script, field by field (CALLS.md).

use crate::role::Role;
use crate::runfile::number;

#[derive(Clone, Copy)]
pub struct Record {
    pub kind: u8,
    pub c: u8,
    pub role: Role,
    /// The lent code.
    pub code: u8,
    pub b: u8,
    pub x: u32,
    pub y: u32,
    pub z: u32,
}

/// The role of byte 2 is its D5–D4, and the lent code its low 4 bits.
fn role(byte: u8) -> Role {
    match byte >> 4 & 3 {
        1 => Role::Candidate,
        2 => Role::Watcher,
        _ => Role::Examiner,
    }
}

impl Record {
    pub fn new(r: &[u8]) -> Record {
        let (x, y, z) = (number(r, 4), number(r, 8), number(r, 12));
        Record { kind: r[0], c: r[1], role: role(r[2]), code: r[2] & 0x0F, b: r[3], x, y, z }
    }
}
