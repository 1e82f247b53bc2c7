//! What the corpus reaches of roles (document 02, request 9). What another role than the examiner asks is tried on copies of
//! the bench too: asked by the examiner, and not asked at all.

mod asked;
mod call;
mod counterfactual;
mod frames;
mod rows;

use self::asked::{Asked, Outcome};
use self::call::{channel, Call};
use self::counterfactual::{Counterfactuals, Shows};
use self::rows::Change;
use super::record::Record;
use super::Bench;
use crate::answer::Answer;
use crate::board::Board;
use crate::role::{Access, Permissions, Role};
use std::collections::BTreeSet;

pub use self::asked::Registers;
pub use self::rows::{wanted, Counts, Row};

/// What the tally remembers of a script.
#[derive(Default)]
pub struct Roles {
    pub counts: Counts,
    pub registers: Registers,
    counterfactuals: Counterfactuals,
    /// What came to each channel since the opening.
    changes: [BTreeSet<Change>; 4],
    /// None while the board is the header's.
    reopened: Option<Reopened>,
}

/// Another opening: what the one before it gave, and whether it was refused.
struct Reopened {
    before: Access,
    is_refused: bool,
}

/// A board before a record.
struct Before {
    n: u32,
    access: Access,
    user: u32,
    /// Active Buffers of each channel.
    active: [u16; 4],
}

impl Before {
    fn new(board: &Board) -> Before {
        let active = std::array::from_fn(|c| board.peek(c).active);
        Before { n: board.n, access: board.access(), user: board.user, active }
    }
}

/// The record with the examiner's role.
fn by_examiner(r: &[u8]) -> Vec<u8> {
    let mut r = r.to_vec();
    r[2] &= 0x0F;
    r
}

/// A write-only register, those of the switches as one.
fn write_only(offset: u32) -> Option<u32> {
    match offset {
        0x06 | 0x08 | 0xFC => Some(offset),
        0x30..=0x3E => Some(0x30),
        _ => None,
    }
}

impl Roles {
    /// A record on the bench, and its answer.
    pub fn step(&mut self, bench: &mut Bench, r: &[u8]) -> Answer {
        let record = Record::new(r);
        let call = Call::of(record);
        let before = Before::new(&bench.board);
        if record.kind == 0 {
            self.counterfactuals.clear();
        }
        let by_other = call.filter(|_| record.role != Role::Examiner).map(|call| (call, bench.unwatched()));
        let told = bench.step(r);
        let shown = self.counterfactuals.step(r, &told);
        self.count(shown);
        match by_other {
            Some((call, copy)) => self.watch(call, r, &told, copy, bench),
            None => self.watch_examiner(r, call, &told, &before),
        }
        if record.kind == 0 {
            self.watch_opening(&before, &told);
        }
        self.watch_lent_code(record, &told, &before);
        self.watch_changes(record, &told, &before, &bench.board);
        told
    }

    fn count(&mut self, rows: Vec<Row>) {
        rows.into_iter().for_each(|row| *self.counts.entry(row).or_default() += 1);
    }

    fn count_if(&mut self, is: bool, row: Row) {
        if is {
            self.count(vec![row]);
        }
    }

    /// After a call by another role than the examiner, with a copy of the bench before it.
    fn watch(&mut self, call: Call, r: &[u8], told: &Answer, before: Bench, bench: &Bench) {
        let record = Record::new(r);
        let mut done = before.unwatched();
        let to_examiner = done.step(&by_examiner(r));
        let asked = Asked::new(call, record, bench.board.access(), bench.board.n, told, to_examiner);
        self.registers.add(&asked);
        self.count(asked.rows());
        self.count(self.rows_of_past(&asked));
        self.watch_frames(&asked, &before, bench);
        let is_high = r[2] & 0xC0 != 0;
        self.count_if(is_high && asked.outcome() == Outcome::NotAllowed, Row::HighBits(record.role));
        self.watch_change(&asked, before, done);
    }

    /// What a call changed, or would have: told by what is answered on a bench without it, or with it.
    fn watch_change(&mut self, asked: &Asked, before: Bench, done: Bench) {
        let (call, role) = (asked.call, asked.record.role);
        // what is of no channel needs no permission to be done
        let is_told = asked.c.is_some() || asked.own == Permissions::NONE;
        let (is_done, bench, shows) = match asked.outcome() {
            Outcome::NotAllowed => (false, done, Shows::Left(call, role)),
            Outcome::Answered if is_told => (true, before, Shows::Done(call, role)),
            _ => return,
        };
        if let (Call::WriteRegister, Some(offset)) = (call, write_only(asked.record.x % 0x800)) {
            self.counterfactuals.add(bench.unwatched(), Shows::WriteOnly(is_done, role, offset));
        }
        if call.is_change() {
            self.counterfactuals.add(bench, shows);
        }
    }

    /// What an answer shows of the permissions since the opening, and before it.
    fn rows_of_past(&self, asked: &Asked) -> Vec<Row> {
        let (Some(c), role) = (asked.c, asked.record.role) else { return Vec::new() };
        let is_held = match asked.outcome() {
            Outcome::Answered => true,
            Outcome::NotAllowed => false,
            _ => return Vec::new(),
        };
        let mut rows: Vec<Row> = self.changes[c].iter().map(|change| Row::KeptOver(*change, role, is_held)).collect();
        match (&self.reopened, asked.call.needs()) {
            (Some(Reopened { before, is_refused }), _) => {
                let needed = asked.call.needed(c);
                let was_held = before.of(role).0 & needed == needed;
                rows.extend((is_held != was_held).then_some(Row::OfOpening(*is_refused, role, is_held)));
            }
            (None, [permission]) => rows.push(Row::OfHeader(asked.is_closed(), role, *permission)),
            (None, _) => {}
        }
        rows
    }

    /// After a call by the examiner, or a record that names no role.
    fn watch_examiner(&mut self, r: &[u8], call: Option<Call>, told: &Answer, before: &Before) {
        let record = Record::new(r);
        let is_other = record.role != Role::Examiner;
        let Some(call) = call else {
            self.count_if(is_other && matches!(told, Answer::Ok | Answer::Wrote(_)), Row::NoRole(record.kind));
            let is_none = record.role == Role::Watcher && record.kind == 9 && matches!(told, Answer::Ticks(_));
            self.count_if(is_none, Row::NoTicks);
            return;
        };
        let is_refused = match told {
            Answer::Refused(_) => true,
            Answer::Part(words) => words.is_empty(),
            _ => false,
        };
        if !is_refused && before.access == Access::NONE {
            self.count_if(true, Row::ByExaminer(call, channel(record)));
            // ticks and events are the candidate's too
            let is_told = !matches!(call, Call::Tick | Call::Event);
            self.count_if(is_told && r[2] >> 4 & 3 == 3, Row::CodeThree);
        }
    }

    /// After a record on an open board, with a lent code whose low bits are those of a wrong one.
    fn watch_lent_code(&mut self, r: Record, told: &Answer, before: &Before) {
        let is_two = matches!(r.kind, 8 | 18);
        let is_lent = is_two || matches!(r.kind, 1 | 3 | 6 | 10) || Call::of(r) == Some(Call::Tick);
        let is_told = before.n > 0 && [9, 10].contains(&r.code) && !matches!(told, Answer::Refused(_));
        self.count_if(is_lent && is_told, Row::HighLentCode(is_two));
    }

    /// After an opening in the place of the board.
    fn watch_opening(&mut self, before: &Before, told: &Answer) {
        self.reopened = Some(Reopened { before: before.access, is_refused: *told == Answer::Refused(1) });
        self.changes = Default::default();
    }

    /// What this record did to channels, which leaves their permissions.
    fn watch_changes(&mut self, r: Record, told: &Answer, before: &Before, after: &Board) {
        let is_ok = *told == Answer::Ok;
        for c in 0..4 {
            let is_named = channel(r) == Some(c);
            let is_switched = (before.active[c] ^ after.peek(c).active) >> 8 & 1 == 1;
            let offset = r.x % 0x800;
            let came = [
                (is_ok && is_named && r.kind == 1 && offset == 0x06 && r.y & 1 == 1, Change::Reset),
                (is_ok && is_named && r.kind == 1 && offset == 0x08 && is_switched, Change::GroupEndCommand),
                (is_ok && r.kind == 10 && is_switched, Change::GroupEndEvent),
                (is_ok && r.kind == 11 && before.user != after.user, Change::UserChange),
                (is_ok && is_named && r.kind == 4, Change::Arm),
                (is_ok && is_named && r.kind == 5, Change::Disarm),
                (matches!(told, Answer::Ticks(_)) && r.x & 0xFFFF >= 20, Change::Ticks),
                (is_named && *told == Answer::Refused(13), Change::Refused),
            ];
            self.changes[c].extend(came.iter().filter(|change| change.0).map(|change| change.1));
        }
    }

    /// At the end of a script.
    pub fn end(&mut self, board: &Board) {
        let access = board.access();
        let is_told = [access.candidate, access.watcher].iter().all(|permissions| permissions.0 & 0x0F != 0x0F);
        self.count_if(is_told, Row::End);
    }
}
