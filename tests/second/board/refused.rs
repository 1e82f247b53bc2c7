//! What the corpus reaches of calls that are refused 1, and so leave tags, readings and downloads as they are; of roles
//! that would have been let make them.

use super::life::Asked;
use super::access::may_run;
use super::Board;
use crate::role::Role;
use crate::tally::Did;

impl Board {
    /// A tick that is refused. Where a send would have come of it, that would have lost the readings.
    pub(super) fn tally_tick_refused(&mut self, role: Role) {
        self.tally.add(Did::tick_refused);
        if may_run(role).is_err() {
            return;
        }
        for c in 0..4 {
            let p = self.peek(c);
            if !p.idle && p.wait == 1 {
                self.watch_volts_kept(c, Did::volts_kept_over_refused_tick);
            }
            self.watch_download_kept(c, Did::download_kept_over_refused_tick);
        }
    }

    /// An event that is refused.
    pub(super) fn tally_event_refused(&mut self, role: Role, code: u8) {
        self.tally.add(Did::event_refused_1);
        if may_run(role).is_err() {
            return;
        }
        for c in 0..4 {
            self.watch_refused(c, Asked::by_event(code, &self.ch[c]));
        }
    }

    /// A write that is refused 1.
    pub(super) fn tally_write_refused(&mut self, role: Role, address: u32, value: u16) {
        self.tally.add(Did::write_refused_1);
        let c = (address / 0x800) as usize;
        match address % 0x800 {
            _ if !(1..=4).contains(&c) || self.may_write(role, c - 1).is_err() => {}
            0x06 if value & 1 == 1 => {
                self.watch_tag_kept(c - 1, Did::tag_kept_over_refused_drop_by_reset);
                self.watch_left(c - 1, Did::volts_kept_over_refused_reset, Did::download_kept_over_refused_reset);
            }
            0x08 => self.watch_refused(c - 1, Asked::by_command(value)),
            _ => {}
        }
    }

    /// What an event or a command asks of a channel.
    fn watch_refused(&mut self, c: usize, asked: Asked) {
        if asked.group_end {
            let by = [Did::download_kept_over_refused_group_end_event, Did::download_kept_over_refused_group_end_command];
            self.watch_left(c, Did::volts_kept_over_refused_group_end, by[asked.by_command as usize]);
        }
        self.watch_tag_refused(c, asked);
    }
}
