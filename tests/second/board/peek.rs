//! What the corpus generator sees of a board.

use super::Board;
use crate::channel::{Hold, ACTIVE};

/// A channel as the corpus generator sees it.
pub struct Peek {
    pub armed: bool,
    pub idle: bool,
    /// Ticks to the function's next send.
    pub wait: u64,
    /// Ticks to the word after a resume, 0 for none.
    pub resume: u64,
    /// The pause (1–5) it is in, 0 for none.
    pub pause: u32,
    pub replies: Option<u32>,
    pub stored: usize,
    pub active: u16,
    /// A command frame leaves on the next tick.
    pub command_is_due: bool,
    /// A command frame waits for Group End.
    pub command_awaits_group_end: bool,
}

impl Board {
    pub fn peek(&self, c: usize) -> Peek {
        let ch = &self.ch[c];
        let f = ch.function.as_ref();
        let next = f.map_or(0, |f| match f.resume {
            Some(at) if f.due + 10 > at => at,
            _ => f.due,
        });
        Peek {
            armed: ch.armed,
            idle: f.is_none(),
            wait: next.saturating_sub(self.now),
            resume: f.and_then(|f| f.resume).map_or(0, |at| at - self.now),
            pause: match f.and_then(|f| f.held) {
                Some((_, Hold::Pause(k))) => k,
                _ => 0,
            },
            replies: f.and_then(|f| f.sent).map(|s| s.replies),
            stored: ch.stored[ch.active_readback()],
            active: ch.w[ACTIVE],
            command_is_due: ch.waiting.is_some_and(|w| w.due.is_some()),
            command_awaits_group_end: ch.waiting.is_some_and(|w| w.due.is_none()),
        }
    }
}
