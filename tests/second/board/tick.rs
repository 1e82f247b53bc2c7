//! A tick of the board. Quotations are document 01's, where no other is named.

use super::access::may_run;
use super::Board;
use crate::last_tick::LastTick;
use crate::role::Role;

impl Board {
    /// Refusals 1, 13, of the whole tick. "A tick answers with each channel's frame or none." Those that the role is shown go
    /// to `show`, with their channels (0–3). Request 9: "a frame that a tick doesn't show still counts as sent".
    pub fn tick(&mut self, role: Role, setpoints: &[u32], mut show: impl FnMut(usize, u64)) -> Result<(), u8> {
        self.setpoints_fit(setpoints).inspect_err(|_| self.tally_tick_refused(role))?;
        may_run(role)?;
        self.now += 1;
        for c in 0..4 {
            self.tally.is_hidden = !self.shows(role, c);
            // document 02, request 10: "that of the state just before that tick"
            let quiet = self.ch[c].quiet(self.now);
            self.watch_tick(c, quiet);
            let command = if self.ch[c].waiting.is_some() { self.tick_command(c) } else { None };
            let setpoint = if self.ch[c].function.is_some() { self.tick_channel(c, setpoints) } else { None };
            // never both: what is due leaves on the next tick; it became due on an idle channel, by D0 or Group End, and a
            // Start since then sends 10 ticks later at the earliest
            assert!(command.is_none() || setpoint.is_none());
            let sent = command.or(setpoint);
            self.ch[c].last_tick = if sent.is_some() { LastTick::Sent } else { quiet };
            if let Some(frame) = sent.filter(|_| self.shows(role, c)) {
                show(c, frame);
            }
        }
        self.tally.is_hidden = false;
        Ok(())
    }
}
