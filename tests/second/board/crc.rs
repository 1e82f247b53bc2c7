//! What the corpus reaches of the CRC from a list of remainders (document 02, request 5): the replies whose CRC a status
//! tells to be right or wrong.

use super::Board;
use crate::channel::CRC;

/// The replies to a channel that have come since 02 was read, and since 04 was, as their 32 middle bits.
#[derive(Clone, Default)]
pub struct Unread([Vec<u32>; 2]);

impl Board {
    /// A reply that is kept or lost; of one that is unasked nothing shows what its CRC is.
    pub(super) fn watch_crc(&mut self, c: usize, reply: u64) {
        for since in &mut self.unread[c].0 {
            since.push((reply >> 10) as u32);
        }
    }

    /// Before a reset, which clears both statuses.
    pub(super) fn watch_crc_reset(&mut self, c: usize) {
        self.unread[c] = Unread::default();
    }

    /// After a read of 02 or 04. With D2 clear no CRC was wrong since its read before; with D2 set one was, and which of
    /// several is not told.
    pub(super) fn tally_crc(&mut self, c: usize, offset: u32, latched: u16) {
        let since = std::mem::take(&mut self.unread[c].0[offset as usize / 2 - 1]);
        if latched & CRC == 0 {
            self.tally.crc_right.extend(since);
        } else if since.len() == 1 {
            self.tally.crc_wrong.extend(since);
        }
    }
}
