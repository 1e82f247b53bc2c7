//! Command frames between functions: document 02, request 1, whose quotations these are.

use super::access::may_run;
use super::life::Asked;
use super::record::MANY;
use super::Board;
use crate::channel::{Channel, CommandAsked, Waiting, Window, COMMAND, CRC, PAIRS, REPLIED};
use crate::frame::frame;
use crate::role::Role;
use crate::tally::Did;

impl Board {
    /// A write to FC. Refusal 10: "FC written with D0 while disarmed or not idle".
    pub(super) fn ask_command(&mut self, c: usize, value: u16) -> Result<(), u8> {
        let bits = value & 3;
        let ch = &self.ch[c];
        let due = match bits {
            0 => {
                self.tally_if(ch.waiting.is_some(), Did::command_stays_without_bits);
                return Ok(());
            }
            // "D1 sends on the tick after the next Group End."
            2 => None,
            _ if !ch.armed || ch.function.is_some() => {
                self.tally_refused_10(c, bits);
                self.watch_left(c, Did::volts_kept_over_command_refused, Did::download_kept_over_command_refused);
                return Err(10);
            }
            // "FC D0 sends on the next tick. [...] D0 wins if both are set."
            _ => Some(self.now + 1),
        };
        self.tally_replaced(c, bits);
        self.watch_left(c, Did::volts_kept_over_command_asked, Did::download_kept_over_command_asked);
        let ch = &mut self.ch[c];
        let fields = [ch.w[COMMAND], ch.w[COMMAND + 1]];
        let asked = CommandAsked { bits, fields, user: self.user, active_readback: ch.active_readback() };
        // "a later FC write with D0 or D1 replaces a waiting frame"
        ch.waiting = Some(Waiting { due, asked });
        Ok(())
    }

    /// "Disarm and reset drop a waiting frame."
    pub(super) fn drop_command(&mut self, c: usize, why: Did) {
        if self.ch[c].waiting.take().is_some() {
            self.tally.add(why);
        }
    }

    /// What waits for Group End is due on the next tick; the replies to an earlier command end.
    pub(super) fn command_at_group_end(&mut self, c: usize) {
        self.close_window(c, Window::ClosedByGroupEnd);
        let next = self.now + 1;
        if let Some(waiting) = &mut self.ch[c].waiting {
            waiting.due = waiting.due.or(Some(next));
        }
    }

    /// The command frame that leaves on this tick, if one does.
    pub(super) fn tick_command(&mut self, c: usize) -> Option<u64> {
        let ch = &mut self.ch[c];
        if ch.waiting.as_ref()?.due? != self.now {
            return None;
        }
        let waiting = ch.waiting.take()?;
        self.tally_sent(c, waiting.asked);
        self.watch_tick_command(c, waiting.asked.bits);
        self.watch_tag_at_command(c, waiting.asked.bits & 1 == 1);
        self.watch_download_kept(c, Did::download_kept_over_command_sent);
        let ch = &mut self.ch[c];
        // "FE is cleared when a command frame is sent."
        ch.w[REPLIED] = 0;
        ch.window = Window::Open;
        ch.commands += 1;
        // "E0 high byte auxiliary bits and low byte Frame ID, E2 data", "built from E0 and E2 at that tick"
        let [auxiliary, id] = ch.w[COMMAND].to_be_bytes();
        self.watch[c].command_id = id;
        Some(frame(id, ch.w[COMMAND + 1], auxiliary))
    }

    /// "Up to six replies after it go to E4–FA [...] until the first setpoint or Group End"
    pub(super) fn is_for_command(&self, c: usize) -> bool {
        self.ch[c].window == Window::Open && self.ch[c].w[REPLIED] < 6
    }

    /// "six pairs of readback ID and readback", "with D8 of an ID word for a wrong CRC and its
    /// other high bits 0"
    pub(super) fn keep_for_command(&mut self, c: usize, reply: u64, wrong: bool) {
        self.tally_kept_for_command(c, reply, wrong);
        self.watch_tag_kept(c, Did::tag_kept_over_command_reply);
        self.watch_download_kept(c, Did::download_kept_over_command_reply);
        let w = &mut self.ch[c].w;
        let at = PAIRS + 2 * w[REPLIED] as usize;
        w[at] = (wrong as u16) << 8 | (reply >> 34) as u16 & 0xFF;
        w[at + 1] = (reply >> 18) as u16;
        w[REPLIED] += 1;
        // document 01: "A wrong CRC, kept or lost, latches CRC."
        if wrong {
            self.latch(c, CRC);
        }
    }

    pub(super) fn close_window(&mut self, c: usize, by: Window) {
        if self.ch[c].window != Window::Open {
            return;
        }
        let did = match by {
            Window::ClosedBySetpoint => Did::command_window_closed_by_setpoint,
            Window::ClosedByGroupEnd => Did::command_window_closed_by_group_end,
            _ => Did::command_window_closed_by_reset,
        };
        // after six replies its end shows in nothing
        self.tally_if(self.ch[c].w[REPLIED] < 6, did);
        self.ch[c].window = by;
    }
}

/// The replies that the last command frame took, while its window is open.
pub(super) fn replies_to_command(ch: &Channel) -> u16 {
    if ch.window == Window::Open { ch.w[REPLIED] } else { 0 }
}

/// What the corpus reaches of it.
impl Board {
    fn tally_refused_10(&mut self, c: usize, bits: u16) {
        let ch = &self.ch[c];
        let (is_armed, waits) = (ch.armed, ch.waiting.is_some());
        self.tally.add(if is_armed { Did::command_refused_not_idle } else { Did::command_refused_disarmed });
        self.tally_if(bits == 3, Did::command_refused_both_bits);
        self.tally_if(waits, Did::command_refused_while_waiting);
    }

    fn tally_replaced(&mut self, c: usize, bits: u16) {
        let Some(old) = self.ch[c].waiting else { return };
        match (old.asked.bits & 1, old.due.is_some(), bits & 1) {
            (1, _, 0) => self.tally.add(Did::command_d0_replaced_by_d1),
            (0, false, 1) => self.tally.add(Did::command_d1_replaced_by_d0),
            (0, true, 1) => self.tally.add(Did::command_due_d1_replaced_by_d0),
            (0, true, 0) => self.tally.add(Did::command_due_d1_replaced_by_d1),
            _ => {}
        }
    }

    /// Before a Group End.
    pub(super) fn tally_command_due(&mut self, c: usize, group_end: &Asked) {
        if self.ch[c].waiting.is_none_or(|w| w.due.is_some()) {
            return;
        }
        let [by, with_start] = if group_end.by_command {
            [Did::command_due_by_command, Did::command_due_by_command_with_start]
        } else {
            [Did::command_due_by_event, Did::command_due_by_event_with_start]
        };
        let is_armed = self.ch[c].armed;
        self.tally.add(if group_end.start && is_armed { with_start } else { by });
        self.tally_if(!is_armed, Did::command_due_while_disarmed);
    }

    /// Before a record of ticks.
    pub fn tally_ticks(&mut self, role: Role, setpoints: &[u32], count: u32) {
        if count == 0 || self.setpoints_fit(setpoints).and(may_run(role)).is_err() {
            return;
        }
        let is_due = |c: &usize| self.ch[*c].waiting.is_some_and(|w| w.due.is_some());
        let due = (0..4).filter(|c| self.shows(role, *c)).filter(is_due).count();
        self.tally_if(due > 1, Did::command_on_two_channels_at_once);
        for c in (0..4).filter(|c| self.shows(role, *c)).collect::<Vec<_>>() {
            let ch = &self.ch[c];
            let Some(waiting) = ch.waiting.filter(|_| count as u64 >= MANY) else { continue };
            let is_setpoint_due = ch.function.as_ref().is_some_and(|f| f.due <= self.now + count as u64);
            if waiting.due.is_none() {
                self.tally.add(Did::command_waits_through_many_ticks);
                continue;
            }
            self.tally.add(Did::command_first_of_many_ticks);
            self.tally_if(is_setpoint_due, Did::command_and_setpoint_in_one_record);
        }
    }

    /// Before a command frame is sent.
    fn tally_sent(&mut self, c: usize, asked: CommandAsked) {
        let (user, ch) = (self.user, &self.ch[c]);
        let is_by_d0 = asked.bits & 1 == 1;
        let by = [Did::command_by_d0, Did::command_by_d1, Did::command_by_both_bits][asked.bits as usize - 1];
        let after_start = if is_by_d0 { Did::command_by_d0_after_start } else { Did::command_by_d1_after_start };
        let rows = [
            (true, by),
            (ch.function.is_some(), after_start),
            (ch.w[COMMAND] > 0xFF, Did::command_with_auxiliary),
            (asked.fields != ch.w[COMMAND..COMMAND + 2], Did::command_fields_changed),
            (asked.user != user, Did::command_after_user_change),
            (is_by_d0 && asked.active_readback != ch.active_readback(), Did::command_by_d0_after_group_end),
            (!ch.armed, Did::command_while_disarmed),
            (ch.w[REPLIED] != 0, Did::command_clears_count),
        ];
        self.tally_rows(&rows);
    }

    /// Before a reply goes to E4–FA.
    fn tally_kept_for_command(&mut self, c: usize, reply: u64, wrong: bool) {
        let ch = &self.ch[c];
        let is_full = self.is_full(c);
        let rows = [
            (true, Did::command_reply_kept),
            (ch.w[REPLIED] == 5, Did::command_reply_sixth),
            (wrong, Did::command_reply_crc_wrong),
            (reply >> 10 & 0xFF != 0, Did::command_reply_with_auxiliary),
            (!ch.armed, Did::command_reply_while_disarmed),
            (ch.function.is_some(), Did::command_reply_in_start_delay),
            (is_full && self.m > 1, Did::command_reply_with_full_buffer),
            (self.m == 1, Did::end_word_of_depth_1_command_reply),
        ];
        self.tally_rows(&rows);
    }

    /// Before a reply that does not go to E4–FA, though there is space.
    pub(super) fn tally_reply_after_window(&mut self, c: usize) {
        let has_space = self.ch[c].w[REPLIED] < 6;
        match self.ch[c].window {
            Window::ClosedBySetpoint => self.tally_if(has_space, Did::command_reply_after_setpoint),
            Window::ClosedByGroupEnd => self.tally_if(has_space, Did::command_reply_after_group_end),
            _ => {}
        }
    }

    /// Before a register's word, at half its offset, is read.
    pub(super) fn tally_command_read(&mut self, c: usize, at: usize) {
        let w = &self.ch[c].w;
        if at < COMMAND || w[at] == 0 {
            return;
        }
        let is_old = at >= PAIRS + 2 * w[REPLIED] as usize;
        self.tally.add(match at {
            REPLIED => Did::command_count_read,
            PAIRS.. if is_old => Did::command_old_pair_read,
            PAIRS.. => Did::command_pair_read,
            _ => Did::command_fields_read,
        });
    }
}
