//! What the corpus reaches of tags that are not yet used: how they come, what they stand through, and what drops them.
//! The next send tells it (`sends`), and the words that are kept of its replies show it (`words`).

use super::sends::LastSend;
use super::shown::Shown;
use super::words::Words;
use crate::board::life::Asked;
use crate::board::record::Record;
use crate::board::rows::only;
use crate::board::Board;
use crate::channel::{Function, Hold};
use crate::tally::Did;

/// What the tally remembers of a channel's tags. It outlives a reset.
#[derive(Clone, Default)]
pub struct Tags {
    /// How the tag that is not yet used came, and what it stood through.
    pub(super) pending: Vec<Did>,
    /// The tags that came since the last one was used or dropped.
    pub(super) times: u32,
    /// Why the next send is not tagged.
    pub(super) absent: Vec<Did>,
    pub(super) record: Record,
    /// Which send of the record used the tag.
    pub(super) used_by: Option<u32>,
    pub(super) last: LastSend,
    pub(super) words: Words,
    pub(super) shown: Shown,
}

/// What drops a tag.
pub enum Dropped<'a> {
    GroupEnd(&'a Asked),
    Disarm,
    Reset,
}

/// Where a function is, at a tick. A resume or a start is in its delay until 10 ticks are left.
fn place(f: Option<&Function>, now: u64) -> Did {
    match f {
        None => Did::tag_while_idle,
        Some(f) if f.fresh && f.sent.is_some() => Did::tag_in_new_start_delay,
        Some(f) if f.fresh && f.due > now + 10 => Did::tag_in_start_delay,
        Some(f) if f.fresh => Did::tag_in_start_gap,
        Some(Function { resume: Some(at), .. }) if *at > now + 10 => Did::tag_in_resume_delay,
        Some(Function { resume: Some(_), .. }) => Did::tag_in_silent_ticks,
        Some(Function { held: None, .. }) => Did::tag_between_words,
        Some(Function { held: Some((_, Hold::Last)), .. }) => Did::tag_while_last_repeats,
        Some(_) => Did::tag_while_paused,
    }
}

/// How a tag comes, alone or with what else one event or command does.
fn ways(asked: &Asked, f: Option<&Function>) -> Vec<Did> {
    let [alone, group_end, start, both, resume] = if asked.by_command {
        [
            Did::tag_by_command, Did::tag_by_command_with_group_end, Did::tag_by_command_with_start,
            Did::tag_by_command_with_group_end_and_start, Did::tag_by_command_with_resume,
        ]
    } else {
        [
            Did::tag_by_event, Did::tag_by_event_with_group_end, Did::tag_by_event_with_start,
            Did::tag_by_event_with_group_end_and_start, Did::tag_by_event_with_resume,
        ]
    };
    let is_resumed = f.is_some_and(|f| match f.held {
        Some((_, Hold::Pause(k))) => f.resume.is_some() && asked.resume[k as usize],
        _ => false,
    });
    let way = match (asked.group_end, asked.start) {
        (false, false) => alone,
        (true, false) => group_end,
        (false, true) => start,
        (true, true) => both,
    };
    if is_resumed { vec![way, resume] } else { vec![way] }
}

fn rows_of_drop(by: &Dropped, is_idle: bool) -> Vec<(bool, Did)> {
    match by {
        Dropped::GroupEnd(asked) => vec![
            (!asked.by_command, Did::tag_dropped_by_group_end_event),
            (asked.by_command, Did::tag_dropped_by_group_end_command),
            (asked.start, Did::tag_dropped_by_group_end_with_start),
            (is_idle, Did::tag_dropped_by_group_end_while_idle),
        ],
        Dropped::Disarm => vec![(!is_idle, Did::tag_dropped_by_disarm), (is_idle, Did::tag_dropped_by_disarm_while_idle)],
        Dropped::Reset => vec![(!is_idle, Did::tag_dropped_by_reset), (is_idle, Did::tag_dropped_by_reset_while_idle)],
    }
}

impl Board {
    /// Before a tag.
    pub(super) fn watch_tag(&mut self, c: usize, asked: &Asked) {
        if asked.by_command {
            self.watch_tag_command(c);
        }
        let (ch, tags) = (&self.ch[c], &mut self.tags[c]);
        if !ch.armed {
            return tags.absent.push(if asked.by_command { Did::tag_command_disarmed } else { Did::tag_event_disarmed });
        }
        tags.absent.clear();
        tags.times += 1;
        if ch.is_tag_pending {
            // this one alone would tag the send: what came before shows no more, nor does a second tag before a third
            tags.pending = only(&[(tags.times == 2, Did::tag_again_before_send)]).collect();
            tags.record.had = false;
            return;
        }
        let f = ch.function.as_ref();
        tags.pending = ways(asked, f);
        tags.pending.push(place(f, self.now));
        if !asked.by_command && tags.shown.has_high_bits() {
            tags.pending.push(Did::tag_by_event_of_register_with_high_bits);
        }
    }

    /// Something that does not drop a tag.
    pub(in crate::board) fn watch_tag_kept(&mut self, c: usize, over: Did) {
        if self.ch[c].is_tag_pending {
            self.tags[c].pending.push(over);
        }
    }

    /// A command frame, by D0 of FC or by D1.
    pub(in crate::board) fn watch_tag_at_command(&mut self, c: usize, is_by_d0: bool) {
        let is_of_group_end = |did: &Did| matches!(did, Did::tag_by_event_with_group_end | Did::tag_by_command_with_group_end);
        if self.tags[c].pending.iter().any(is_of_group_end) {
            self.watch_tag_kept(c, Did::tag_of_group_end_kept_over_command);
        }
        self.watch_tag_kept(c, if is_by_d0 { Did::tag_kept_over_command_by_d0 } else { Did::tag_kept_over_command_by_d1 });
    }

    /// Before a tag is dropped, if there is one.
    pub(super) fn watch_tag_dropped(&mut self, c: usize, by: Dropped) {
        let is_idle = self.ch[c].function.is_none();
        let rows = rows_of_drop(&by, is_idle);
        match by {
            Dropped::GroupEnd(_) => self.watch_tag_end_word(c),
            Dropped::Disarm => {}
            Dropped::Reset => self.watch_tag_reset(c),
        }
        let (is_pending, tags) = (self.ch[c].is_tag_pending, &mut self.tags[c]);
        // one that came before would be dropped as well
        tags.absent.clear();
        tags.pending.clear();
        tags.times = 0;
        tags.record.had = false;
        if is_pending {
            tags.absent.extend(only(&rows));
        }
        for other in (0..4).filter(|other| *other != c) {
            self.watch_tag_kept(other, Did::tag_kept_over_drop_on_other_channel);
        }
    }

    /// Before a record of ticks.
    pub fn watch_tag_record(&mut self) {
        for c in 0..4 {
            if self.tags[c].record.is_long(self.now) {
                self.watch_tag_kept(c, Did::tag_kept_through_many_ticks);
            }
            self.tags[c].record = Record::new(self.now, self.ch[c].is_tag_pending);
            self.tags[c].used_by = None;
        }
    }
}
