//! An end word in every retired buffer: document 02, request 3, whose quotations these are.

use super::life::Asked;
use super::{Board, Reply};
use crate::tally::Did;

pub(super) const END_WORD: u32 = 0x0200_0000;

impl Board {
    /// The readbacks that a buffer takes: "The last place is now kept for it. A buffer of depth M takes M − 1
    /// readbacks and the next is lost." A closed board, of depth 0, takes none.
    pub fn capacity(&self) -> usize {
        (self.m as usize).saturating_sub(1)
    }

    pub(super) fn is_full(&self, c: usize) -> bool {
        let ch = &self.ch[c];
        ch.stored[ch.active_readback()] >= self.capacity()
    }

    /// Where the next readback, or the end word, goes in the lent words: after the stored readbacks.
    pub(super) fn next_place(&self, c: usize) -> usize {
        let active = self.ch[c].active_readback();
        (2 * c + active) * self.m as usize + self.ch[c].stored[active]
    }

    /// "Group End always writes the end word." A closed board is lent no word for it.
    pub(super) fn write_end_word(&mut self, c: usize, readbacks: &mut [u32]) {
        if self.m > 0 {
            readbacks[self.next_place(c)] = END_WORD;
        }
    }
}

/// What the tally remembers of a channel's groups. It outlives a reset.
#[derive(Clone, Default)]
pub struct Groups {
    /// The replies lost in this one.
    lost: u32,
    /// What became of the last reply that was due, if nothing was sent since.
    last_reply: Option<Reply>,
    /// The one before.
    before: Option<Retired>,
    /// A reset since then.
    is_reset: bool,
    /// A reset of a full buffer since then.
    is_reset_full: bool,
    /// A reset since then while readbacks were retired.
    is_part_reset: bool,
}

/// A group that retired.
#[derive(Clone, Copy)]
struct Retired {
    buffer: usize,
    stored: usize,
    lost: u32,
}

/// What the corpus reaches of it.
impl Board {
    /// The readbacks of this group.
    fn stored(&self, c: usize) -> usize {
        self.ch[c].stored[self.ch[c].active_readback()]
    }

    /// Full of readbacks; with depth 1 there are none.
    fn is_filled(&self, c: usize) -> bool {
        self.m > 1 && self.is_full(c)
    }

    /// Before a Group End.
    pub(super) fn tally_group_end(&mut self, c: usize, asked: &Asked, readbacks: &[u32]) {
        if self.m == 0 {
            return self.tally.add(Did::end_word_of_closed_board);
        }
        let (stored, last_place, is_on) = (self.stored(c), self.m as usize - 1, self.ch[c].function.is_some());
        let Groups { lost, last_reply, before, .. } = self.groups[c];
        let is_before_empty = before.is_some_and(|b| b.stored == 0) && !self.groups[c].is_reset;
        self.tally_rows(&[
            (true, Did::end_word),
            (stored == 0, Did::end_word_of_empty_group),
            (stored == 0 && is_before_empty, Did::end_word_of_two_empty_groups),
            (stored > 0 && stored + 1 == last_place, Did::end_word_in_last_place_but_one),
            (is_on && last_reply == Some(Reply::Lost), Did::end_word_right_after_lost),
            (self.m == 1 && lost > 0, Did::end_word_of_depth_1_after_lost),
            (self.m == 2 && stored == 1, Did::end_word_of_depth_2_in_last_place),
        ]);
        if self.is_filled(c) {
            self.tally_last_place(c, asked);
        }
        self.tally_older(c, readbacks);
        self.tally_after_reset(c);
        let buffer = self.ch[c].active_readback();
        self.groups[c] = Groups { before: Some(Retired { buffer, stored, lost }), ..Groups::default() };
    }

    /// Before a Group End that retires a full buffer.
    fn tally_last_place(&mut self, c: usize, asked: &Asked) {
        let ch = &self.ch[c];
        let (is_idle, is_armed, is_second) = (ch.function.is_none(), ch.armed, ch.active_readback() == 1);
        self.tally_rows(&[
            (!asked.by_command, Did::end_word_in_last_place_by_event),
            (asked.by_command, Did::end_word_in_last_place_by_command),
            (asked.start && is_armed, Did::end_word_in_last_place_with_start),
            (is_idle && is_armed, Did::end_word_in_last_place_while_idle),
            (!is_armed, Did::end_word_in_last_place_while_disarmed),
            (is_second, Did::end_word_in_last_place_of_buffer_2),
            (is_second && c == 3, Did::end_word_in_last_word_lent),
            (self.groups[c].lost == 0, Did::end_word_in_last_place_with_none_lost),
        ]);
    }

    /// Before a Group End, in a buffer that may have an end word of an earlier one.
    fn tally_older(&mut self, c: usize, readbacks: &[u32]) {
        let place = self.next_place(c);
        let end = place + self.m as usize - self.stored(c);
        let is_older = |at: usize| self.is_end_word(c, at, readbacks[at]);
        let rows = [
            (is_older(place), Did::end_word_older_in_same_place),
            ((place + 1..end).any(is_older), Did::end_word_older_stands_after),
            (place + 1 < end && is_older(end - 1), Did::end_word_older_stands_in_last_place),
        ];
        self.tally_rows(&rows);
    }

    /// This word is one of an earlier Group End, and no tagged readback that equals it.
    fn is_end_word(&self, c: usize, place: usize, word: u32) -> bool {
        word == END_WORD && !self.is_readback(c, place)
    }

    /// Before a Group End, with a reset since the one before.
    fn tally_after_reset(&mut self, c: usize) {
        let Groups { before, is_reset, is_reset_full, .. } = self.groups[c];
        let is_same = before.is_some_and(|b| b.buffer == self.ch[c].active_readback());
        self.tally_rows(&[
            (is_reset && is_same, Did::end_word_in_same_buffer_after_reset),
            (is_reset_full && !self.is_full(c), Did::end_word_after_reset_of_full),
        ]);
    }

    /// Before a readback is stored in the place of a word.
    pub(super) fn tally_stored(&mut self, c: usize, place: usize, word: u32) {
        let (stored, is_older) = (self.stored(c), self.is_end_word(c, place, word));
        let Groups { before, is_reset, is_reset_full, .. } = self.groups[c];
        let is_after_full = !is_reset && before.is_some_and(|b| b.stored == self.capacity());
        self.tally_rows(&[
            (stored + 1 == self.capacity(), Did::end_word_reply_fills),
            (stored == 0 && is_after_full, Did::end_word_reply_kept_after_full),
            (stored == 0 && is_reset_full, Did::end_word_reply_kept_after_reset_of_full),
            (is_older, Did::end_word_older_overwritten_by_readback),
        ]);
        self.groups[c].last_reply = Some(Reply::Kept);
    }

    /// A reply that is lost, and how many there are with it since its send.
    pub(super) fn tally_lost(&mut self, c: usize, replies: u32) {
        let last = self.groups[c].last_reply;
        self.tally_rows(&[
            (true, Did::lost),
            (self.m > 1, Did::end_word_reply_lost),
            (self.m > 1 && last == Some(Reply::Kept), Did::end_word_reply_lost_after_one_kept),
            (self.m == 1, Did::end_word_of_depth_1_reply_lost),
            (self.m == 1 && replies == 6, Did::end_word_of_depth_1_sixth_lost),
        ]);
        self.groups[c].lost += 1;
        self.groups[c].last_reply = Some(Reply::Lost);
    }

    /// After a setpoint send.
    pub(super) fn watch_send(&mut self, c: usize) {
        self.groups[c].last_reply = None;
    }

    /// Before a reset.
    pub(super) fn watch_group_reset(&mut self, c: usize) {
        let (is_full, is_retired) = (self.is_filled(c), self.retired_count(c) > 0);
        let groups = &mut self.groups[c];
        groups.is_reset = true;
        groups.is_reset_full |= is_full;
        groups.is_part_reset |= is_retired;
        groups.lost = 0;
        groups.last_reply = None;
    }

    /// The group before lost replies.
    pub(super) fn is_after_lost(&self, c: usize) -> bool {
        self.groups[c].before.is_some_and(|b| b.lost > 0)
    }

    /// Before a part is answered; those are its words in the buffers that were lent.
    pub(super) fn tally_part(&mut self, c: usize, part: &[u32]) {
        let (is_part_reset, is_after_lost) = (self.groups[c].is_part_reset, self.is_after_lost(c));
        self.tally_rows(&[
            (part.is_empty(), Did::part_empty),
            (!part.is_empty(), Did::part_not_empty),
            (self.m > 1 && part.len() == self.capacity(), Did::end_word_part_of_full_buffer),
            (self.m == 1 && is_after_lost, Did::end_word_of_depth_1_part),
            (is_part_reset, Did::end_word_part_empty_after_reset),
            // a tagged readback, or in buffers lent in exchange or another channel's, or where a word was set behind the board
            (part.contains(&END_WORD), Did::end_word_in_part),
        ]);
    }
}
