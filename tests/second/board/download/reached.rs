//! What the corpus reaches of downloads: counted at an opening or a portion, whose answer would be another if what is
//! counted were otherwise. A portion has two calls. The one beside it tells a refusal by its number, or a length; the other
//! tells words, and so nothing of a portion that has none, refused or not.

use super::halves::Halves;
use super::Portion;
use crate::board::Board;
use crate::tally::Did;

/// What the tally remembers of a script's board.
#[derive(Clone, Default)]
pub struct Downloads {
    pub(super) of: [Watched; 4],
    /// The last opening: of which channel, and its count.
    pub(super) opened: Option<(usize, usize)>,
    /// What one of the two calls has shown.
    pub(super) halves: Halves,
}

/// And of a channel. It outlives a reset.
#[derive(Clone, Default)]
pub struct Watched {
    pub(super) open: Option<Open>,
    /// The last one that ended.
    pub(super) before: Option<Before>,
    /// Of none being open: why.
    pub(super) absent: Halves,
}

/// A download that is open.
#[derive(Clone, Default)]
pub struct Open {
    pub(super) count: usize,
    /// Which of its words portions gave.
    pub(super) given: Vec<bool>,
    /// The portion before, by its first index and length.
    pub(super) last: Option<(u32, u32)>,
    /// Since the portion before.
    pub(super) ran: Ran,
    /// The next function ran between two of its portions.
    pub(super) is_interleaved: bool,
    /// What it stood through.
    pub(super) stood: Halves,
}

/// What the next function did: it sent, and a reply to it was kept.
#[derive(Clone, Copy, Default)]
pub struct Ran {
    pub(super) has_sent: bool,
    pub(super) has_kept: bool,
}

impl Ran {
    pub(super) fn is_whole(self) -> bool {
        self.has_sent && self.has_kept
    }
}

/// A download that ended.
#[derive(Clone)]
pub struct Before {
    pub(super) count: usize,
    pub(super) by: EndedBy,
}

/// What ended it, or came since.
#[derive(Clone, Copy, PartialEq)]
pub enum EndedBy {
    /// And how many of them.
    GroupEnds(u32),
    Reset,
    BoardOpening,
}

const OF_CHANNEL: [Did; 4] = [
    Did::download_opened_of_channel_1, Did::download_opened_of_channel_2, Did::download_opened_of_channel_3,
    Did::download_opened_of_channel_4,
];

impl Board {
    /// Of a script's board. No record of a run file asks for a download, so there the tally is spared their memory.
    pub fn watch_downloads(&mut self) {
        self.downloads = Some(Downloads::default());
    }

    /// An opening that is refused.
    pub(super) fn tally_opening_refused(&mut self, c: u32) {
        self.tally_rows(&[
            (c == 0, Did::download_opening_refused_channel_0),
            (c == 5, Did::download_opening_refused_channel_5),
            (c == 255, Did::download_opening_refused_channel_255),
            (c > 7 && (1..=4).contains(&(c & 7)), Did::download_opening_refused_with_low_bits_of_channel),
            (self.n == 0, Did::download_opening_refused_on_closed_board),
        ]);
        for c in 0..4 {
            self.watch_download_kept(c, Did::download_kept_over_refused_opening);
            self.watch_download_absent(c, Did::download_none_after_refused_opening);
        }
    }

    /// Before an opening is answered with this count.
    pub(super) fn tally_opening(&mut self, c: usize, count: usize) {
        if self.downloads.is_none() {
            return;
        }
        let mut rows = self.rows_of_count(c, count);
        rows.extend(self.rows_of_state(c, count));
        rows.extend(self.rows_of_earlier(c, count));
        self.tally_rows(&rows);
        self.watch_download_beside(c, Did::download_kept_over_opening_of_other_channel);
        let Some(downloads) = &mut self.downloads else { return };
        downloads.opened = Some((c, count));
        let watched = &mut downloads.of[c];
        let is_again = watched.open.is_some();
        watched.open = Some(Open { count, given: vec![false; count], ..Open::default() });
        watched.absent.clear();
        if is_again {
            self.watch_download_kept(c, Did::download_kept_over_opening_again);
        }
    }

    /// What is told of the retired count, where it is not that of the active buffer, or of another channel.
    fn rows_of_count(&self, c: usize, count: usize) -> Vec<(bool, Did)> {
        let active = self.ch[c].active_readback();
        let is_told = self.ch[c].stored[active] != count;
        let is_alone = (0..4).all(|other| other == c || self.retired_count(other) != count);
        vec![
            (count == 0 && is_told, Did::download_opened_of_0),
            (count > 0 && count < self.capacity() && is_told, Did::download_opened_of_some),
            (count > 0 && count == self.capacity() && is_told, Did::download_opened_of_full_part),
            (self.m == 1 && self.is_after_lost(c), Did::download_opened_of_depth_1),
            (count > 0 && active == 1 && is_told, Did::download_opened_of_buffer_1),
            (count > 0 && active == 0 && is_told, Did::download_opened_of_buffer_2),
            (count > 0 && is_alone, OF_CHANNEL[c]),
            (self.n == 0, Did::download_opened_on_closed_board),
        ]
    }

    /// In which state the channel is.
    fn rows_of_state(&self, c: usize, count: usize) -> Vec<(bool, Did)> {
        let (ch, is_some) = (&self.ch[c], count > 0);
        let has_sent = ch.function.as_ref().map(|f| f.sent.is_some());
        vec![
            (is_some && !ch.armed, Did::download_opened_while_disarmed),
            (is_some && ch.armed && has_sent.is_none(), Did::download_opened_while_idle),
            (is_some && has_sent == Some(false), Did::download_opened_in_start_delay),
            (is_some && has_sent == Some(true), Did::download_opened_while_running),
        ]
    }

    /// What is told of this opening after the one before it.
    fn rows_of_earlier(&self, c: usize, count: usize) -> Vec<(bool, Did)> {
        let Some(Downloads { of, .. }) = &self.downloads else { return Vec::new() };
        let (open, before) = (of[c].open.as_ref(), of[c].before.as_ref());
        // the count of a download that is open is still the retired one
        let before = before.filter(|_| open.is_none());
        let counted_by = |is: fn(EndedBy) -> bool| before.filter(|before| is(before.by)).map(|before| before.count);
        let by_group_end = counted_by(|by| matches!(by, EndedBy::GroupEnds(_)));
        let by_reset = counted_by(|by| by == EndedBy::Reset);
        vec![
            (open.is_some(), Did::download_opened_again),
            (open.is_some_and(|open| open.last.is_some()), Did::download_opened_again_after_portion),
            (by_group_end.is_some_and(|counted| count != counted), Did::download_opened_anew_of_other_count),
            (by_reset.is_some_and(|counted| count == 0 && counted > 0), Did::download_opened_anew_after_reset),
        ]
    }

    /// The count within which a portion gave words, or would if the download had not ended, or had been opened.
    pub(super) fn counted(&self, c: usize) -> usize {
        let watched = self.downloads.as_ref().map(|downloads| &downloads.of[c]);
        let open = watched.and_then(|watched| watched.open.as_ref()).map(|open| open.count);
        let before = watched.and_then(|watched| watched.before.as_ref()).map(|before| before.count);
        open.or(before).unwrap_or(self.retired_count(c))
    }

    /// A portion with words, if it is not refused.
    pub(super) fn has_words(&self, c: usize, asked: Portion) -> bool {
        asked.length > 0 && asked.end() <= self.counted(c) as u64
    }

    pub(super) fn is_open(&self, c: usize) -> bool {
        self.downloads.as_ref().is_some_and(|downloads| downloads.of[c].open.is_some())
    }

    /// A channel with a download open that has these words.
    pub(super) fn would_answer(&self, c: usize, asked: Portion) -> bool {
        self.is_open(c) && self.has_words(c, asked)
    }

    /// What this call shows, which is counted when the other has shown it too.
    pub(super) fn show(&mut self, asked: Portion, rows: &[(bool, Did)]) {
        for (_, did) in rows.iter().filter(|row| row.0) {
            let is_shown = self.downloads.as_mut().is_some_and(|downloads| downloads.halves.show(*did, asked.is_length));
            self.tally_if(is_shown, *did);
        }
    }
}
