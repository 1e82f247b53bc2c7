//! What the corpus reaches of portions that are refused 1 or 2.

use super::Portion;
use crate::board::Board;
use crate::tally::Did;

impl Board {
    /// A portion that is lent other lengths.
    pub(super) fn tally_portion_misfit(&mut self, asked: Portion, lent: [&[u32]; 2]) {
        let c = Board::channel(asked.c);
        let is_past = |c: usize| asked.end() > self.counted(c) as u64;
        let rows = [
            (c.is_err(), Did::download_refused_1_of_no_channel),
            (c.is_ok_and(|c| !self.is_open(c)), Did::download_refused_1_with_none_open),
            (c.is_ok_and(|c| self.is_open(c) && is_past(c)), Did::download_refused_1_past_count),
        ];
        if asked.is_length {
            self.tally_rows(&rows);
        }
        let Ok(c) = c else { return };
        if self.would_answer(c, asked) {
            self.show(asked, &self.rows_of_lent(c, lent));
        }
        self.watch_download_kept(c, Did::download_kept_over_portion_refused_1);
    }

    /// Which lengths are wrong: that of the buffer that the words would be of, or the other's.
    fn rows_of_lent(&self, c: usize, lent: [&[u32]; 2]) -> Vec<(bool, Did)> {
        let m = self.m as usize;
        let [first, second] = lent.map(|buffer| buffer.len());
        let is_first = self.ch[c].active_readback() == 1;
        let (first_short, second_short) = (first < m && second == m, first == m && second < m);
        let first_long = first > m && second == m;
        vec![
            (first_short && is_first, Did::download_refused_first_short_of_words),
            (first_short && !is_first, Did::download_refused_first_short_beside_words),
            (second_short && !is_first, Did::download_refused_second_short_of_words),
            (second_short && is_first, Did::download_refused_second_short_beside_words),
            (first_long && is_first, Did::download_refused_first_long_of_words),
            (first_long && !is_first, Did::download_refused_first_long_beside_words),
            (first == 0 && second == 0, Did::download_refused_both_empty),
            (first < m && second > m, Did::download_refused_parted_early),
        ]
    }

    /// A portion of no channel.
    pub(super) fn tally_portion_of_no_channel(&mut self, asked: Portion) {
        let c = asked.c;
        let low = (c & 7) as usize;
        let is_like = c > 7 && (1..=4).contains(&low) && self.would_answer(low - 1, asked);
        let is_any = (0..4).any(|c| self.would_answer(c, asked));
        self.show(asked, &[
            (c == 0 && is_any, Did::download_refused_channel_0),
            (c == 5 && is_any, Did::download_refused_channel_5),
            (c == 255 && is_any, Did::download_refused_channel_255),
            (is_like, Did::download_refused_with_low_bits_of_channel),
        ]);
        for c in 0..4 {
            self.watch_download_kept(c, Did::download_kept_over_portion_of_no_channel);
        }
    }

    /// A portion whose end is past the count.
    pub(super) fn tally_portion_past_count(&mut self, c: usize, asked: Portion) {
        let (count, m) = (self.counted(c) as u64, self.m as u64);
        let (first, end) = (asked.first as u64, asked.end());
        if asked.is_length {
            self.tally_rows(&rows_of_large(asked, count));
            self.tally_rows(&[
                // no words: the number alone tells it from one that is answered
                (asked.length == 0 && first == count + 1, Did::download_refused_length_0_one_past),
                (count == 0 && first == 0 && end == 1, Did::download_refused_of_count_0),
                (self.n == 0, Did::download_refused_on_closed_board),
            ]);
            self.show_kept(c, true);
        }
        // words stand there, past the retired part: the end word first
        self.show(asked, &[
            (first < count && end == count + 1, Did::download_refused_end_one_past),
            (first > count && first < m && asked.length > 0, Did::download_refused_first_past_count),
            (first < count && end > m, Did::download_refused_end_past_depth),
            (self.m == 1 && first == 0 && end == 1, Did::download_refused_of_depth_1),
        ]);
        self.watch_download_kept(c, Did::download_kept_over_portion_refused_2);
    }
}

/// Numbers so large that in fewer bits, or signed, their sum is not past the count.
fn rows_of_large(asked: Portion, count: u64) -> Vec<(bool, Did)> {
    let Portion { first, length, .. } = asked;
    let is_wrapped = asked.end() > u32::MAX as u64;
    let is_in_16_bits = (first & 0xFFFF) as u64 + (length & 0xFFFF) as u64 <= count;
    let is_if_signed = (first as i32).checked_add(length as i32).is_some_and(|end| (end as i64) <= count as i64);
    vec![
        (is_wrapped && first.wrapping_add(length) as u64 <= count, Did::download_refused_in_range_if_sum_wraps),
        (first > 0xFFFF && length > 0 && is_in_16_bits, Did::download_refused_first_in_range_in_16_bits),
        (length > 0xFFFF && is_in_16_bits, Did::download_refused_length_in_range_in_16_bits),
        (!is_wrapped && first > i32::MAX as u32 && is_if_signed, Did::download_refused_first_below_0_if_signed),
        (!is_wrapped && length > i32::MAX as u32 && is_if_signed, Did::download_refused_length_below_0_if_signed),
    ]
}
