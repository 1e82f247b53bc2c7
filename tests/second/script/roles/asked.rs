//! A call by another role than the examiner, and what its answer shows.

use super::call::{channel, Call, Permission, Reason};
use super::rows::Row;
use crate::answer::Answer;
use crate::role::{Access, Permissions, Role};
use crate::script::record::Record;
use std::collections::BTreeSet;

pub struct Asked<'a> {
    pub call: Call,
    pub record: Record,
    /// The channel (0–3) that it names.
    pub c: Option<usize>,
    /// The permissions of its role, and those of the other.
    pub own: Permissions,
    other: Permissions,
    pub told: &'a Answer,
    /// What the examiner would have been answered.
    pub to_examiner: Answer,
    /// The board's depth N.
    n: u32,
}

#[derive(Clone, Copy, PartialEq)]
pub enum Outcome {
    Answered,
    NotAllowed,
    Refused(u8),
    /// An empty part, refused or not.
    Unknown,
}

impl<'a> Asked<'a> {
    pub fn new(call: Call, record: Record, access: Access, n: u32, told: &'a Answer, to_examiner: Answer) -> Asked<'a> {
        let other = if record.role == Role::Candidate { access.watcher } else { access.candidate };
        Asked { call, record, c: channel(record), own: access.of(record.role), other, told, to_examiner, n }
    }

    pub fn outcome(&self) -> Outcome {
        match (self.told, &self.to_examiner) {
            (Answer::Refused(13), _) => Outcome::NotAllowed,
            (Answer::Refused(n), _) => Outcome::Refused(*n),
            (Answer::Part(part), Answer::Part(whole)) if part.is_empty() && !whole.is_empty() => Outcome::NotAllowed,
            (Answer::Part(part), _) if part.is_empty() => Outcome::Unknown,
            _ => Outcome::Answered,
        }
    }

    pub fn is_closed(&self) -> bool {
        self.n == 0
    }

    pub fn rows(&self) -> Vec<Row> {
        match self.outcome() {
            Outcome::Answered => self.rows_answered(),
            Outcome::NotAllowed => self.rows_not_allowed(),
            Outcome::Refused(number) => self.rows_refused(number),
            Outcome::Unknown => Vec::new(),
        }
    }

    /// The role has nothing but what the call needs.
    fn is_alone(&self) -> bool {
        self.c.is_some_and(|c| self.own.0 == self.call.needed(c))
    }

    /// The role may not make the call. Of a channel that there is not, it may not if it has no permission at all.
    fn is_missing(&self) -> bool {
        match (self.c, self.call) {
            (Some(c), call) => self.own.0 & call.needed(c) != call.needed(c),
            (None, Call::Tick | Call::Event) => self.record.role == Role::Watcher,
            (None, call) => call.needs().is_empty() || self.own == Permissions::NONE,
        }
    }

    fn rows_answered(&self) -> Vec<Row> {
        let (call, role) = (self.call, self.record.role);
        match self.c {
            Some(c) if self.is_alone() && self.other.0 & call.needed(c) == 0 => vec![Row::Alone(call, role, c)],
            None if self.own == Permissions::NONE => vec![Row::Always(call, role)],
            _ => Vec::new(),
        }
    }

    fn rows_not_allowed(&self) -> Vec<Row> {
        let (call, role, offset) = (self.call, self.record.role, self.record.x);
        let reason = match self.to_examiner {
            Answer::Refused(number) => Reason::of(self.record, number, self.n),
            _ => None,
        };
        if let Some(reason) = reason {
            return vec![Row::RoleFirst(call, role, reason)];
        }
        match (self.c, call) {
            (Some(c), _) => {
                let is = |permission: &&Permission| self.own.0 == !permission.bit(c) && self.other.0 & permission.bit(c) != 0;
                call.needs().iter().filter(is).map(|permission| Row::AllBut(call, role, c, *permission)).collect()
            }
            _ if self.own != Permissions::ALL => Vec::new(),
            (None, Call::WriteMain) => vec![Row::Main(role, true, offset)],
            (None, Call::ReadMain) => vec![Row::Main(role, false, offset)],
            (None, _) => vec![Row::Never(call, role)],
        }
    }

    fn rows_refused(&self, number: u8) -> Vec<Row> {
        let (call, role, offset) = (self.call, self.record.role, self.record.x % 0x800);
        match Reason::of(self.record, number, self.n) {
            Some(reason) if reason.is_first() && self.is_missing() => vec![Row::ReasonFirst(call, role, reason)],
            Some(Reason::WrongWay) if self.is_alone() && call == Call::WriteRegister => {
                vec![Row::ReasonAlone(call, role, Reason::WrongWay), Row::ReadOnlyWritten(offset)]
            }
            Some(reason) if !reason.is_first() && self.is_alone() => vec![Row::ReasonAlone(call, role, reason)],
            _ => Vec::new(),
        }
    }
}

/// The offsets of registers that were read and written with that permission alone, and refused with all but it.
#[derive(Default)]
pub struct Registers {
    pub read: BTreeSet<u32>,
    pub written: BTreeSet<u32>,
    pub not_read: BTreeSet<u32>,
    pub not_written: BTreeSet<u32>,
}

impl Registers {
    pub fn add(&mut self, asked: &Asked) {
        let (done, refused, permission) = match asked.record.kind {
            1 => (&mut self.written, &mut self.not_written, Permission::Write),
            2 => (&mut self.read, &mut self.not_read, Permission::Read),
            _ => return,
        };
        let (Some(c), offset) = (asked.c, asked.record.x % 0x800) else { return };
        match asked.outcome() {
            Outcome::Answered if asked.own.0 == permission.bit(c) => _ = done.insert(offset),
            Outcome::NotAllowed if asked.own.0 == !permission.bit(c) => _ = refused.insert(offset),
            _ => {}
        }
    }

    pub fn join(&mut self, other: &Registers) {
        self.read.extend(&other.read);
        self.written.extend(&other.written);
        self.not_read.extend(&other.not_read);
        self.not_written.extend(&other.not_written);
    }
}
