//! Downloads: document 02, request 8, whose quotations these are.

mod halves;
mod kept;
mod portions;
mod reached;
mod refused;

pub use self::reached::Downloads;
use super::life::Asked;
use super::Board;
use crate::role::Role;

/// What a portion is asked for, and by which of its two calls: the one that answers words, or the one beside it, which
/// answers their number.
#[derive(Clone, Copy)]
pub struct Portion {
    pub c: u32,
    pub first: u32,
    pub length: u32,
    /// For the tally alone: the two answer alike.
    pub is_length: bool,
}

impl Portion {
    /// The index past its last word, in whole numbers: it may be one that no 32-bit word holds.
    pub(super) fn end(self) -> u64 {
        self.first as u64 + self.length as u64
    }
}

impl Board {
    /// Refusals 2, 13. "Opening a download of a channel remembers the retired count and answers it." One that is open gives way
    /// to it.
    pub fn open_download(&mut self, role: Role, c: u32) -> Result<usize, u8> {
        let c = Board::channel(c).inspect_err(|_| self.tally_opening_refused(c))?;
        self.may_read(role, c)?;
        let count = self.retired_count(c);
        self.tally_opening(c, count);
        self.ch[c].download = Some(count);
        Ok(count)
    }

    /// Refusals 1, 2, 13, 12, 2: "Portions give a first index and a length and return those words".
    pub fn portion<'a>(&mut self, role: Role, asked: Portion, lent: [&'a [u32]; 2]) -> Result<&'a [u32], u8> {
        let told = self.find_portion(role, asked, lent);
        self.tally_portion(asked, lent, told);
        told
    }

    /// The answer alone, with nothing counted.
    pub fn find_portion<'a>(&self, role: Role, asked: Portion, lent: [&'a [u32]; 2]) -> Result<&'a [u32], u8> {
        // "lent the channel's two buffers on the terms of a retired-readbacks call"
        self.two_fit(lent)?;
        let c = Board::channel(asked.c)?;
        self.may_read(role, c)?;
        let ch = &self.ch[c];
        // "checked after the channel and before the range"
        let count = ch.download.ok_or(12)?;
        // "A portion whose end is past the count is refused 2."
        if asked.end() > count as u64 {
            return Err(2);
        }
        let retired = lent[1 - ch.active_readback()];
        Ok(&retired[asked.first as usize..][..asked.length as usize])
    }

    /// "Group End or reset on that channel ends the download." A reset makes the channel anew.
    pub(super) fn end_download(&mut self, c: usize, asked: &Asked) {
        self.watch_download_group_end(c, asked);
        self.ch[c].download = None;
    }
}
