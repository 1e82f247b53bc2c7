//! What the corpus reaches of a download that ends, and of what leaves it open.

use super::reached::{Before, Downloads, EndedBy, Open};
use super::Portion;
use crate::board::life::Asked;
use crate::board::record::MANY;
use crate::board::rows::only;
use crate::board::Board;
use crate::tally::Did;

impl Open {
    fn has_given_some(&self) -> bool {
        self.given.contains(&true) && self.given.contains(&false)
    }
}

impl Board {
    /// Something that leaves the channel's download open, if one is.
    pub(in crate::board) fn watch_download_kept(&mut self, c: usize, over: Did) {
        let Some(Downloads { of, .. }) = &mut self.downloads else { return };
        if let Some(open) = &mut of[c].open {
            open.stood.add(over);
        }
    }

    /// Something on a channel that leaves the other channels' downloads open.
    pub(in crate::board) fn watch_download_beside(&mut self, c: usize, over: Did) {
        (0..4).filter(|other| *other != c).for_each(|other| self.watch_download_kept(other, over));
    }

    /// Something that leaves the channel's readings (request 7), and its download.
    pub(in crate::board) fn watch_left(&mut self, c: usize, readings: Did, download: Did) {
        self.watch_volts_kept(c, readings);
        self.watch_download_kept(c, download);
    }

    /// Something that opens none.
    pub(super) fn watch_download_absent(&mut self, c: usize, why: Did) {
        let Some(Downloads { of, .. }) = &mut self.downloads else { return };
        if of[c].open.is_none() {
            of[c].absent.add(why);
        }
    }

    /// A setpoint send.
    pub(in crate::board) fn watch_download_send(&mut self, c: usize) {
        let Some(Downloads { of, .. }) = &mut self.downloads else { return };
        if let Some(open) = &mut of[c].open {
            open.ran.has_sent = true;
        }
        self.watch_download_kept(c, Did::download_kept_over_send);
    }

    /// A reply that is kept or lost.
    pub(in crate::board) fn watch_download_reply(&mut self, c: usize, is_stored: bool) {
        let Some(Downloads { of, .. }) = &mut self.downloads else { return };
        if let Some(open) = of[c].open.as_mut().filter(|_| is_stored) {
            open.ran.has_kept |= open.ran.has_sent;
        }
        self.watch_download_kept(c, [Did::download_kept_over_reply_lost, Did::download_kept_over_reply][is_stored as usize]);
    }

    /// After a record of so many ticks.
    pub fn watch_download_ticks(&mut self, ticks: u32) {
        if ticks as u64 >= MANY {
            (0..4).for_each(|c| self.watch_download_kept(c, Did::download_kept_over_many_ticks));
        }
    }

    /// Before a Group End.
    pub(super) fn watch_download_group_end(&mut self, c: usize, asked: &Asked) {
        let (ends, of_other) = if asked.by_command {
            (Did::download_ended_by_group_end_command, Did::download_kept_over_group_end_command_of_other_channel)
        } else {
            (Did::download_ended_by_group_end_event, Did::download_kept_over_group_end_event_of_other_channel)
        };
        self.watch_download_beside(c, of_other);
        let ch = &self.ch[c];
        let rows: Vec<Did> = only(&[
            (true, ends),
            (asked.start && ch.armed, Did::download_ended_by_group_end_with_start),
            (!ch.armed, Did::download_ended_by_group_end_while_disarmed),
            (ch.armed && ch.function.is_none(), Did::download_ended_by_group_end_while_idle),
            (ch.stored[ch.active_readback()] == 0, Did::download_ended_by_group_end_of_empty_group),
        ])
        .collect();
        if !self.watch_download_ended(c, rows, EndedBy::GroupEnds(1)) {
            self.watch_group_end_with_none(c);
        }
    }

    /// A Group End with no download open: after two the buffers are again as they were when it was opened.
    fn watch_group_end_with_none(&mut self, c: usize) {
        let Some(Downloads { of, .. }) = &mut self.downloads else { return };
        of[c].absent.clear();
        if let Some(Before { by: EndedBy::GroupEnds(count), .. }) = &mut of[c].before {
            *count += 1;
            if *count == 2 {
                of[c].absent.add(Did::download_ended_by_two_group_ends);
            }
        }
    }

    /// What ends a download, if one is open, with what there is to say of it: whether one was.
    fn watch_download_ended(&mut self, c: usize, rows: Vec<Did>, by: EndedBy) -> bool {
        let Some(Downloads { of, .. }) = &mut self.downloads else { return false };
        let watched = &mut of[c];
        let Some(open) = watched.open.take() else { return false };
        watched.before = Some(Before { count: open.count, by });
        watched.absent.clear();
        rows.into_iter().for_each(|did| watched.absent.add(did));
        if open.has_given_some() {
            watched.absent.add(Did::download_ended_after_some_words);
        }
        true
    }

    /// Before a reset.
    pub(in crate::board) fn watch_download_reset(&mut self, c: usize) {
        self.watch_download_beside(c, Did::download_kept_over_reset_of_other_channel);
        let is_idle = self.ch[c].function.is_none();
        let rows = only(&[
            (true, Did::download_ended_by_reset),
            (is_idle, Did::download_ended_by_reset_while_idle),
        ])
        .collect();
        let was_open = self.watch_download_ended(c, rows, EndedBy::Reset);
        if let (false, Some(Downloads { of, .. })) = (was_open, &mut self.downloads) {
            of[c].absent.clear();
            of[c].before.iter_mut().for_each(|before| before.by = EndedBy::Reset);
        }
    }

    /// Which channels have one open.
    pub(in crate::board) fn open_downloads(&self) -> [bool; 4] {
        std::array::from_fn(|c| self.is_open(c))
    }

    /// After an event, before which these were open.
    pub(in crate::board) fn watch_download_event(&mut self, before: [bool; 4]) {
        let ended: Vec<usize> = (0..4).filter(|c| before[*c] && !self.is_open(*c)).collect();
        if ended.len() > 1 {
            ended.into_iter().for_each(|c| self.watch_download_absent(c, Did::download_ended_on_two_channels_at_once));
        }
    }

    /// After an opening in the place of another board, which is lent no more than this one.
    pub fn watch_download_board_opening(&mut self, board: &Board) {
        let by = if self.n == 0 { Did::download_ended_by_refused_board_opening } else { Did::download_ended_by_board_opening };
        let Some(Downloads { of, .. }) = &mut self.downloads else { return };
        for c in (0..4).filter(|c| board.is_open(*c)) {
            let count = board.counted(c).min(self.m as usize);
            of[c].before = Some(Before { count, by: EndedBy::BoardOpening });
            // no portion of a closed board has words: the number alone shows it
            if self.n == 0 {
                of[c].absent.show(by, false);
            }
            of[c].absent.add(by);
        }
    }

    /// A portion with no download open, which is answered 12.
    pub(super) fn tally_none_open(&mut self, c: usize, asked: Portion) {
        let is_first = self.downloads.as_ref().is_some_and(|downloads| downloads.of[c].before.is_none());
        let is_past = asked.end() > self.counted(c).max(self.retired_count(c)) as u64;
        if asked.is_length {
            self.tally_rows(&[
                (asked.length == 0 && asked.first == 0, Did::download_none_of_length_0),
                (is_past, Did::download_none_past_count),
                (self.n == 0, Did::download_none_on_closed_board),
            ]);
        }
        let has_words = self.has_words(c, asked);
        if !asked.is_length && !has_words {
            return;
        }
        let shown = self.downloads.as_mut().map(|downloads| downloads.of[c].absent.show_all(asked.is_length));
        shown.into_iter().flatten().for_each(|did| self.tally.add(did));
        let is_beside = (0..4).any(|other| self.would_answer(other, asked));
        self.show(asked, &[
            (is_first && has_words, Did::download_none_yet),
            (has_words && is_beside, Did::download_none_beside_open),
        ]);
    }
}
