//! What the tally remembers of a record of ticks, for a channel.

/// Ticks that are many for one record.
pub const MANY: u64 = 20;

/// When it began, whether what is watched (a tag, a reading) was there then, and its sends.
#[derive(Clone, Copy, Default)]
pub struct Record {
    began: u64,
    pub had: bool,
    pub sends: u32,
}

impl Record {
    pub fn new(now: u64, had: bool) -> Record {
        Record { began: now, had, sends: 0 }
    }

    /// The ticks since it began.
    pub fn ticks(self, now: u64) -> u64 {
        now - self.began
    }

    /// What was there stood through many ticks, with no send.
    pub fn is_long(self, now: u64) -> bool {
        self.had && self.sends == 0 && self.ticks(now) >= MANY
    }
}
