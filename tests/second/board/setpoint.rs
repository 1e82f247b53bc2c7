//! Setpoint writes. Quotations are document 01's.

use super::Board;
use crate::role::Role;
use crate::tally::Did;

/// A word and where it goes: the memory is "by channel, user, buffer 1 or 2, index".
#[derive(Clone, Copy)]
pub struct Setpoint {
    pub c: u32,
    pub user: u32,
    pub buffer: u32,
    pub index: u32,
    pub word: u32,
}

impl Board {
    /// Refusals 1, 2 of the channel, 13, 2 of the others, 6.
    pub fn set(&mut self, role: Role, asked: Setpoint, setpoints: &mut [u32]) -> Result<(), u8> {
        let Setpoint { user, buffer, index, word, .. } = asked;
        self.setpoints_fit(setpoints).inspect_err(|_| self.tally.add(Did::setpoint_refused_1))?;
        let c = Board::channel(asked.c)?;
        self.may_write(role, c)?;
        if !(1..=8).contains(&user) || !(1..=2).contains(&buffer) || index >= self.n {
            return Err(2);
        }
        let ch = &self.ch[c];
        let live = ch.active_setpoint(user) == buffer - 1;
        match (live, ch.armed) {
            (true, true) => return Err(6),
            (true, false) => self.tally.add(Did::setpoint_active_while_disarmed),
            (false, true) => self.tally.add(Did::setpoint_inactive_while_armed),
            (false, false) => {}
        }
        self.watch_left(c, Did::volts_kept_over_setpoint_write, Did::download_kept_over_setpoint_write);
        setpoints[self.word_at(c, user, buffer - 1, index)] = word;
        Ok(())
    }

    pub(super) fn word_at(&self, c: usize, user: u32, second: u32, index: u32) -> usize {
        (16 * c + 2 * (user as usize - 1) + second as usize) * self.n as usize + index as usize
    }
}
