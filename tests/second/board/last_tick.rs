//! What the last tick did to a channel: document 02, request 10, whose quotations these are.

mod reached;

pub use self::reached::Ticks;
use super::Board;
use crate::channel::Channel;
use crate::last_tick::LastTick;
use crate::role::Role;

impl Channel {
    /// What a tick, the one of number `now`, tells of the channel as it is just before it, if it sends nothing: "that the
    /// named reason held and that the ones before it in this list didn't".
    pub(super) fn quiet(&self, now: u64) -> LastTick {
        let Some(f) = &self.function else {
            return if self.armed { LastTick::Idle } else { LastTick::Disarmed };
        };
        // a first word or the next one leaves 10 ticks after the delay: on the delay's last tick 10 are to come
        match f.resume {
            _ if f.fresh && f.due >= now + 10 => LastTick::StartDelay,
            _ if f.fresh => LastTick::StartGap,
            Some(at) if at < now + 10 => LastTick::ResumeGap,
            // "A resume delay between repeats counts as between edges."
            _ => LastTick::BetweenEdges,
        }
    }
}

impl Board {
    /// Refusals 2, 13: "The call needs the read right." "For any channel, say what the last tick did".
    pub fn last_tick(&self, role: Role, c: u32) -> Result<LastTick, u8> {
        let c = Board::channel(c)?;
        self.may_read(role, c)?;
        Ok(self.ch[c].last_tick)
    }

    /// What one more tick would tell of a channel (0–3).
    pub fn next_tick(&self, c: usize) -> LastTick {
        let p = self.peek(c);
        let is_due = p.command_is_due || (!p.idle && p.wait == 1);
        if is_due { LastTick::Sent } else { self.ch[c].quiet(self.now + 1) }
    }

    /// What is told of each channel.
    pub fn last_ticks(&self) -> [LastTick; 4] {
        std::array::from_fn(|c| self.ch[c].last_tick)
    }
}
