//! What the corpus reaches of the sends that use a tag, and of those that end a mark.

use crate::board::rows::only;
use crate::board::sending::{Kind, Sending};
use crate::board::Board;
use crate::tally::Did;

/// What the tally remembers of a channel's last send.
#[derive(Clone, Default)]
pub struct LastSend {
    /// What there is to say of it, until a reply to it is kept.
    pub(super) rows: Vec<Did>,
    /// It used a tag that came several times.
    is_of_several: bool,
    /// A resume was under way.
    pub(super) is_in_resume_delay: bool,
}

/// By kind.
const USED: [Did; 6] = [
    Did::tag_used_by_first_word, Did::tag_used_by_next_word, Did::tag_used_by_word_after_resume, Did::tag_used_by_repeat_of_pause,
    Did::tag_used_by_repeat_in_resume_delay, Did::tag_used_by_repeat_of_last,
];
const ENDED: [Did; 6] = [
    Did::tag_ended_by_first_word, Did::tag_ended_by_next_word, Did::tag_ended_by_word_after_resume, Did::tag_ended_by_repeat_of_pause,
    Did::tag_ended_by_repeat_in_resume_delay, Did::tag_ended_by_repeat_of_last,
];

impl Board {
    pub(super) fn watch_tag_used(&mut self, c: usize, sending: Sending, is_tagged: bool) {
        let Sending { kind, is_after_tagged, is_short } = sending;
        let tags = &mut self.tags[c];
        tags.shown.has_tagged_shortfall |= is_after_tagged && is_short;
        tags.record.sends += 1;
        let ended_since = tags.used_by.map_or(0, |by| tags.record.sends - by);
        let mut rows = std::mem::take(if is_tagged { &mut tags.pending } else { &mut tags.absent });
        rows.extend(only(&[
            (is_tagged, USED[kind as usize]),
            (is_tagged && is_after_tagged, Did::tag_used_right_after_tagged_send),
            (is_tagged && is_short, Did::tag_used_by_send_with_shortfall),
            (!is_tagged && is_after_tagged, ENDED[kind as usize]),
            (!is_tagged && is_after_tagged && tags.last.is_of_several, Did::tag_of_several_ended),
            (ended_since > 0, Did::tag_used_and_ended_in_one_record),
            (ended_since >= 10, Did::tag_used_early_in_long_record),
        ]));
        let is_in_resume_delay = matches!(kind, Kind::RepeatInResumeDelay);
        tags.last = LastSend { rows, is_of_several: is_tagged && tags.times > 1, is_in_resume_delay };
        tags.pending.clear();
        tags.absent.clear();
        if is_tagged {
            tags.times = 0;
            tags.used_by = Some(tags.record.sends);
        }
    }
}
