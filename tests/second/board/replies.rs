//! Replies, and the readbacks that are kept of them. Quotations are document 01's.

use super::Board;
use crate::channel::{Function, Sent, Window, CRC};
use crate::frame::{badly_framed, crc};
use crate::role::Role;
use crate::tally::Did;

#[derive(Clone, Copy, PartialEq, Debug)]
pub enum Reply {
    Kept,
    Lost,
    Unasked,
}

/// The word that is kept of a reply: "D31–D26 describe the last send", "D24 CRC wrong, D23–D16 ID, D15–D0 data".
/// Document 02, request 6: "Replies kept for that send have D25 set".
fn stored_word(sent: Sent, reply: u64, wrong: bool) -> u32 {
    sent.flags | (sent.is_tagged as u32) << 25 | (wrong as u32) << 24 | (reply >> 18) as u32 & 0x00FF_FFFF
}

impl Board {
    /// Why a reply is unasked, if it is: "A reply is kept if not idle, a setpoint was sent since
    /// idle, and fewer than six replies have followed the last such send; else it is "unasked"."
    fn unasked(&self, c: usize) -> Option<Did> {
        match self.ch[c].function {
            // the six pairs are taken
            _ if self.ch[c].window == Window::Open => Some(Did::command_reply_seventh),
            None => Some(Did::unasked_idle),
            Some(Function { sent: None, .. }) => Some(Did::unasked_before_send),
            Some(Function { sent: Some(Sent { replies: 6, .. }), .. }) => Some(Did::unasked_seventh),
            Some(_) => None,
        }
    }

    /// Refusals 1, 2, 13, 7.
    pub fn reply(&mut self, role: Role, c: u32, reply: u64, readbacks: &mut [u32]) -> Result<Reply, u8> {
        self.readbacks_fit(readbacks).inspect_err(|_| self.tally_reply_refused(role, c, reply))?;
        let c = Board::channel(c)?;
        self.may_write(role, c)?;
        if badly_framed(reply) {
            self.watch_volts_refused(c, Did::volts_after_reply_refused_7);
            return Err(7);
        }
        let wrong = crc((reply >> 10) as u32) != (reply >> 2) as u8;
        if self.is_for_command(c) {
            self.watch_crc(c, reply);
            self.keep_for_command(c, reply, wrong);
            return Ok(Reply::Kept);
        }
        self.tally_reply_after_window(c);
        if let Some(why) = self.unasked(c) {
            self.tally.add(why);
            self.tally_tag_unasked(c, why);
            self.watch_volts_unasked(c, reply, wrong, why);
            self.watch_download_kept(c, Did::download_kept_over_reply_unasked);
            if wrong {
                self.tally.add(Did::crc_wrong_unasked);
            }
            return Ok(Reply::Unasked);
        }
        self.watch_crc(c, reply);
        let answer = self.store(c, reply, wrong, readbacks);
        // "A wrong CRC, kept or lost, latches CRC."
        if wrong {
            self.tally.add(if answer == Reply::Kept { Did::crc_wrong_kept } else { Did::crc_wrong_lost });
            self.latch(c, CRC);
        }
        Ok(answer)
    }

    /// A reply that is refused 1. One to no channel, badly framed or without the right would be refused with right lengths
    /// too, and takes no place either way.
    fn tally_reply_refused(&mut self, role: Role, c: u32, reply: u64) {
        self.tally.add(Did::reply_refused_1);
        let named = Board::channel(c).ok().filter(|c| self.may_write(role, *c).is_ok());
        if let (Some(c), false) = (named, badly_framed(reply)) {
            self.watch_volts_refused(c, Did::volts_after_reply_refused_1);
        }
    }

    /// A reply that is asked for: kept, or lost. "If the buffer is full it is "lost", and counts
    /// among the six."
    fn store(&mut self, c: usize, reply: u64, wrong: bool, readbacks: &mut [u32]) -> Reply {
        let (is_full, place) = (self.is_full(c), self.next_place(c));
        let ch = &mut self.ch[c];
        let active = ch.active_readback();
        let f = ch.function.as_mut().unwrap();
        if f.fresh {
            self.tally.add(Did::kept_in_new_start_delay);
        }
        let sent = f.sent.as_mut().unwrap();
        sent.replies += 1;
        if !is_full {
            sent.take_reading(reply, wrong);
        }
        let sent = *sent;
        self.watch_volts_reply(c, reply, wrong, !is_full);
        self.watch_download_reply(c, !is_full);
        if is_full {
            self.tally_lost(c, sent.replies);
            self.tally_tag_lost(sent, wrong);
            self.watch[c].lost += 1;
            return Reply::Lost;
        }
        self.tally_stored(c, place, readbacks[place]);
        readbacks[place] = stored_word(sent, reply, wrong);
        self.watch_tag_stored(c, sent, place, readbacks[place]);
        self.ch[c].stored[active] += 1;
        self.tally.add(Did::kept);
        for (bit, did) in [(31, Did::kept_first), (30, Did::kept_paused), (29, Did::kept_last)] {
            if sent.flags >> bit & 1 == 1 {
                self.tally.add(did);
            }
        }
        Reply::Kept
    }

    /// Refusals 1, 2, 13: the length of the part, and whether it is of the second buffer.
    /// "the answer is the stored part of the inactive one itself, by count, without the end word"
    pub fn retired(&mut self, role: Role, c: u32, first: &[u32], second: &[u32]) -> Result<(bool, usize), u8> {
        self.two_fit([first, second]).inspect_err(|_| self.tally.add(Did::retired_refused_1))?;
        let c = Board::channel(c)?;
        self.may_read(role, c)?;
        let is_second = self.ch[c].active_readback() == 0;
        let length = self.retired_count(c);
        let part = &(if is_second { second } else { first })[..length];
        self.tally_part(c, part);
        self.tally_retired_beside_download(c);
        self.watch_left(c, Did::volts_kept_over_retired, Did::download_kept_over_retired);
        Ok((is_second, length))
    }

    /// "(M each for the two retired buffers)"
    pub(super) fn two_fit(&self, lent: [&[u32]; 2]) -> Result<(), u8> {
        if lent.iter().all(|buffer| buffer.len() as u64 == self.m as u64) { Ok(()) } else { Err(1) }
    }

    /// The retired count of a channel (0–3), as its own buffers would show it.
    pub fn retired_count(&self, c: usize) -> usize {
        self.ch[c].stored[1 - self.ch[c].active_readback()]
    }
}
