//! What the corpus reaches of portions that are answered.

use super::reached::{Downloads, Open, Ran};
use super::Portion;
use crate::board::end_word::END_WORD;
use crate::board::Board;
use crate::tally::Did;

const OF_CHANNEL: [Did; 4] = [
    Did::download_portion_of_channel_1, Did::download_portion_of_channel_2, Did::download_portion_of_channel_3,
    Did::download_portion_of_channel_4,
];

impl Open {
    /// A portion by its words: which are given with it.
    fn give(&mut self, asked: Portion) {
        let (first, end) = (asked.first as usize, asked.end() as usize);
        self.is_interleaved |= self.last.is_some() && self.ran.is_whole();
        self.ran = Ran::default();
        if let Some(given) = self.given.get_mut(first..end) {
            given.fill(true);
        }
        self.last = Some((asked.first, asked.length));
    }
}

impl Board {
    /// A portion that was answered so.
    pub(super) fn tally_portion(&mut self, asked: Portion, lent: [&[u32]; 2], told: Result<&[u32], u8>) {
        if self.downloads.is_none() {
            return;
        }
        match (Board::channel(asked.c), told) {
            (_, Err(1)) => self.tally_portion_misfit(asked, lent),
            (Err(_), _) => self.tally_portion_of_no_channel(asked),
            (Ok(_), Err(13)) => {}
            (Ok(c), Err(12)) => self.tally_none_open(c, asked),
            (Ok(c), Err(_)) => self.tally_portion_past_count(c, asked),
            (Ok(c), Ok(words)) => self.tally_answered(c, asked, lent, words),
        }
    }

    /// The channel's download is open, as this call shows.
    pub(super) fn show_kept(&mut self, c: usize, is_length: bool) {
        let open = self.downloads.as_mut().and_then(|downloads| downloads.of[c].open.as_mut());
        let shown = open.map(|open| open.stood.show_all(is_length));
        shown.into_iter().flatten().for_each(|did| self.tally.add(did));
    }

    fn tally_answered(&mut self, c: usize, asked: Portion, lent: [&[u32]; 2], words: &[u32]) {
        let Some(Downloads { of, .. }) = &self.downloads else { return };
        let Some(open) = of[c].open.clone() else { return };
        if asked.is_length || !words.is_empty() {
            self.show_kept(c, asked.is_length);
        }
        if words.is_empty() {
            if asked.is_length {
                self.tally_rows(&self.rows_of_no_words(asked, open.count));
            }
            return;
        }
        self.show(asked, &self.rows_of_range(asked, &open));
        self.show(asked, &self.rows_among_channels(c, asked));
        if asked.is_length {
            self.watch_download_kept(c, Did::download_kept_over_length);
        } else {
            self.tally_words(c, asked, lent, words);
        }
        self.watch_download_beside(c, Did::download_kept_over_portion_of_other_channel);
    }

    /// "Length 0 is allowed."
    fn rows_of_no_words(&self, asked: Portion, count: usize) -> Vec<(bool, Did)> {
        let first = asked.first as usize;
        vec![
            (first < count, Did::download_length_0_below_count),
            (first == count && count > 0, Did::download_length_0_at_count),
            (count == 0 && self.m > 1, Did::download_length_0_of_count_0),
            (self.m == 1, Did::download_length_0_of_depth_1),
            (self.n == 0, Did::download_length_0_on_closed_board),
        ]
    }

    /// Where in the retired part it is, and where beside the portion before it.
    fn rows_of_range(&self, asked: Portion, open: &Open) -> Vec<(bool, Did)> {
        let (first, end, count) = (asked.first, asked.end(), open.count as u64);
        let last_end = open.last.map(|(first, length)| first as u64 + length as u64);
        vec![
            (first == 0 && end == count, Did::download_portion_of_all),
            (first == 0 && end < count, Did::download_portion_of_first_words),
            (first > 0 && end < count, Did::download_portion_of_middle_words),
            (first > 0 && end == count, Did::download_portion_of_last_words),
            (end == self.capacity() as u64, Did::download_portion_to_end_of_full_part),
            (open.last == Some((first, asked.length)), Did::download_portion_again),
            (open.last.is_some_and(|last| first < last.0), Did::download_portion_before_the_last),
            (last_end.is_some_and(|last_end| first as u64 > last_end), Did::download_portion_after_gap),
        ]
    }

    /// What is told of the channel among the others: by another's download the portion would be refused.
    fn rows_among_channels(&self, c: usize, asked: Portion) -> Vec<(bool, Did)> {
        let is_alone = (0..4).all(|other| other == c || !self.would_answer(other, asked));
        let opened = self.downloads.as_ref().and_then(|downloads| downloads.opened);
        let is_past_later = opened.is_some_and(|(other, count)| other != c && asked.end() > count as u64);
        vec![(is_alone, OF_CHANNEL[c]), (is_past_later, Did::download_portion_past_count_of_later_opening)]
    }

    /// A portion by its words.
    fn tally_words(&mut self, c: usize, asked: Portion, lent: [&[u32]; 2], words: &[u32]) {
        let active = self.ch[c].active_readback();
        // those at the same places of the active buffer are others
        let is_told = lent[active][asked.first as usize..][..words.len()] != *words;
        let Some(Downloads { of, .. }) = &mut self.downloads else { return };
        let Some(open) = &mut of[c].open else { return };
        open.give(asked);
        let is_whole_in_portions = words.len() < open.count && !open.given.contains(&false);
        let rows = [
            (is_told && active == 1, Did::download_words_of_buffer_1),
            (is_told && active == 0, Did::download_words_of_buffer_2),
            (is_told && is_whole_in_portions && open.is_interleaved, Did::download_words_of_all_while_next_function_runs),
            (words.contains(&END_WORD), Did::download_words_with_end_word),
        ];
        self.tally_rows(&rows);
        self.watch_download_kept(c, Did::download_kept_over_portion);
    }

    /// Before a retired part is answered.
    pub(in crate::board) fn tally_retired_beside_download(&mut self, c: usize) {
        let watched = self.downloads.as_ref().map(|downloads| &downloads.of[c]);
        let has_given = watched.and_then(|watched| watched.open.as_ref()).is_some_and(|open| open.last.is_some());
        self.tally_if(has_given, Did::download_left_retired_part);
    }
}
