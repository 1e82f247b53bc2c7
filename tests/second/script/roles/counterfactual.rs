//! Benches on which a call went otherwise: the first answer that differs from the bench's own shows how it went.

use super::call::Call;
use super::rows::Row;
use crate::answer::Answer;
use crate::role::Role;
use crate::script::record::Record;
use crate::script::Bench;

/// What a difference shows.
#[derive(Clone, Copy, PartialEq)]
pub enum Shows {
    /// A call was refused, and here it is done.
    Left(Call, Role),
    /// A call was answered, and here it is not made.
    Done(Call, Role),
    /// The same of a write to a write-only register, answered (true) or refused.
    WriteOnly(bool, Role, u32),
    /// Frames were not shown (those of commands, or of setpoints), and here they are not sent.
    Sent { is_command: bool },
}

struct Counterfactual {
    bench: Bench,
    shows: Shows,
    records: u32,
}

/// After so many records a difference is no longer waited for.
const MOST: u32 = 40;

#[derive(Default)]
pub struct Counterfactuals(Vec<Counterfactual>);

impl Counterfactuals {
    /// In the place of an earlier one that would show the same.
    pub fn add(&mut self, bench: Bench, shows: Shows) {
        self.0.retain(|other| other.shows != shows);
        self.0.push(Counterfactual { bench, shows, records: 0 });
    }

    /// Before another board takes the place of all.
    pub fn clear(&mut self) {
        self.0.clear();
    }

    /// The next record and its answer: what is shown by it.
    pub fn step(&mut self, r: &[u8], told: &Answer) -> Vec<Row> {
        let mut rows = Vec::new();
        self.0.retain_mut(|other| {
            other.records += 1;
            let is_same = other.bench.step(r) == *told;
            if !is_same {
                rows.extend(row(other.shows, Record::new(r)));
            }
            is_same && other.records < MOST
        });
        rows
    }
}

fn row(shows: Shows, differs: Record) -> Option<Row> {
    match shows {
        Shows::Left(call, role) => Some(Row::Left(call, role)),
        Shows::Done(call, role) => Some(Row::Done(call, role)),
        Shows::WriteOnly(is_done, role, offset) => Some(Row::WriteOnly(is_done, role, offset)),
        Shows::Sent { is_command } => Call::of(differs).map(|call| Row::HiddenCounts(is_command, call)),
    }
}
