//! What the corpus reaches of replies to tagged sends. Whether a send is tagged shows in the words that are kept of its
//! replies; and a word shows in a retired part, or where it stands to the end of a file: `trace` prints it then, and
//! `calls` a hash of all words. So what there is to say of a reply is counted where its word shows, and what there is to
//! say of a send with the first word of its replies; nothing, if that is overwritten before. A reply that is lost or
//! unasked is counted as it is answered.

use crate::board::end_word::END_WORD;
use crate::board::record::MANY;
use crate::board::rows::only;
use crate::board::Board;
use crate::channel::Sent;
use crate::tally::Did;
use std::collections::BTreeMap;

/// A word that is kept of a reply, and what it shows that is not yet counted.
#[derive(Clone)]
pub struct Kept {
    word: u32,
    rows: Vec<Did>,
}

/// By their places in the lent words.
pub type Words = BTreeMap<usize, Kept>;

impl Board {
    /// A reply that is kept, for this send and as this word in this place.
    pub(in crate::board) fn watch_tag_stored(&mut self, c: usize, sent: Sent, place: usize, word: u32) {
        let mut rows = std::mem::take(&mut self.tags[c].last.rows);
        rows.extend(only(&self.rows_of_reply(c, sent, word)));
        self.tags[c].words.insert(place, Kept { word, rows });
        self.watch_tag_kept(c, Did::tag_kept_over_reply);
    }

    fn rows_of_reply(&self, c: usize, sent: Sent, word: u32) -> Vec<(bool, Did)> {
        let Sent { flags, is_tagged, replies, .. } = sent;
        let (ch, tags) = (&self.ch[c], &self.tags[c]);
        if !is_tagged {
            return vec![(ch.is_tag_pending, Did::tag_after_send_before_reply)];
        }
        let f = ch.function.as_ref();
        let is_resumed = f.is_some_and(|f| f.resume.is_some()) && !tags.last.is_in_resume_delay;
        let (sends, ticks) = (tags.record.sends, tags.record.ticks(self.now));
        vec![
            (true, Did::tag_reply_kept),
            (replies == 6, Did::tag_reply_sixth),
            (word >> 24 & 1 == 1, Did::tag_reply_crc_wrong),
            (word == END_WORD, Did::tag_word_like_end_word),
            (ch.is_tag_pending, Did::tag_reply_after_next_tag),
            (is_resumed, Did::tag_reply_after_resume),
            (f.is_some_and(|f| f.fresh), Did::tag_reply_in_new_start_delay),
            (sends == 0 && ticks >= 5, Did::tag_reply_after_more_ticks),
            (sends == 1 && ticks >= MANY, Did::tag_used_by_only_send_of_record),
            (flags >> 29 == 0b100, Did::tag_with_d31),
            (flags >> 29 == 0b010, Did::tag_with_d30),
            (flags >> 29 == 0b001, Did::tag_with_d29),
            (flags >> 29 == 0b110, Did::tag_with_d31_and_d30),
            (flags >> 29 == 0b101, Did::tag_with_d31_and_d29),
            (flags >> 29 == 0, Did::tag_with_no_flag),
            (flags >> 26 & 7 != 0, Did::tag_of_other_user),
        ]
    }

    /// A reply that is lost, to this send.
    pub(in crate::board) fn tally_tag_lost(&mut self, sent: Sent, wrong: bool) {
        self.tally_if(sent.is_tagged, Did::tag_reply_lost);
        self.tally_if(sent.is_tagged && wrong, Did::tag_reply_crc_wrong_lost);
    }

    /// A reply that is unasked.
    pub(in crate::board) fn tally_tag_unasked(&mut self, c: usize, why: Did) {
        let is_tagged = self.ch[c].function.as_ref().and_then(|f| f.sent).is_some_and(|sent| sent.is_tagged);
        self.tally_if(is_tagged && matches!(why, Did::unasked_seventh), Did::tag_reply_unasked);
    }

    /// A readback that this board kept stands there.
    pub(in crate::board) fn is_readback(&self, c: usize, place: usize) -> bool {
        self.tags[c].words.contains_key(&place)
    }

    /// Before an end word, which may overwrite a readback.
    pub(super) fn watch_tag_end_word(&mut self, c: usize) {
        let place = self.next_place(c);
        self.tags[c].words.remove(&place);
    }

    /// A retired part that is answered, of channel 1–4.
    pub fn tally_tag_part(&mut self, c: u32, part: &[u32]) {
        let c = c as usize - 1;
        let first = (2 * c + 1 - self.ch[c].active_readback()) * self.m as usize;
        let mut is_own = true;
        for (place, word) in (first..).zip(part) {
            is_own &= self.tally_tag_word(c, place, *word);
        }
        if !is_own {
            return;
        }
        let like = part.iter().filter(|w| **w == END_WORD).count();
        self.tally_rows(&[
            (part.iter().any(|w| w >> 25 & 1 == 1), Did::tag_in_part),
            (like > 0, Did::tag_word_like_end_word_in_part),
            (like > 1, Did::tag_words_like_end_word_in_part),
            (part.first() == Some(&END_WORD), Did::tag_word_like_end_word_begins_part),
            (part.last() == Some(&END_WORD), Did::tag_word_like_end_word_ends_part),
        ]);
    }

    /// The readback memory at the end of a file.
    pub fn tally_tag_end(&mut self, readbacks: &[u32]) {
        for (place, word) in readbacks.iter().enumerate() {
            for c in 0..4 {
                self.tally_tag_word(c, place, *word);
            }
        }
    }

    /// A word that is shown, and whether it is the one that is kept there.
    fn tally_tag_word(&mut self, c: usize, place: usize, word: u32) -> bool {
        let Some(kept) = self.tags[c].words.get_mut(&place).filter(|kept| kept.word == word) else { return false };
        for did in std::mem::take(&mut kept.rows) {
            self.tally.add(did);
        }
        true
    }
}
