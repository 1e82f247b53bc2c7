//! What the corpus reaches of readings that are lost with a send or when the channel idles, and of what leaves them.

use super::places::LastSend;
use super::reached::{Unasked, WatchedVolts};
use crate::board::command::replies_to_command;
use crate::board::rows::only;
use crate::board::sending::{Kind, Sending};
use crate::board::Board;
use crate::tally::Did;

/// Readings that are no longer told, and why.
#[derive(Clone)]
pub struct Cleared {
    /// Which of the four were stored.
    stored: [bool; 4],
    by: Vec<Did>,
    /// What there is to say in the start delay of the next function.
    in_start_delay: Option<Did>,
    /// The sends of one record of ticks that cleared them, each of which would have.
    sends: u32,
    /// If a user change cleared them: the user before it.
    user: Option<u32>,
}

/// What idles a channel.
pub enum Idled {
    GroupEnd { by_command: bool, with_start: bool },
    Disarm,
    UserChange { from: u32, to: u32 },
    Reset,
}

/// By the kind of the send.
const BY_SEND: [Did; 6] = [
    Did::volts_lost_by_first_word, Did::volts_lost_by_next_word, Did::volts_lost_by_word_after_resume,
    Did::volts_lost_by_repeat_of_pause, Did::volts_lost_by_repeat_in_resume_delay, Did::volts_lost_by_repeat_of_last,
];

impl Cleared {
    fn new(last: &LastSend, by: Vec<Did>) -> Option<Cleared> {
        last.has_reading().then(|| Cleared { stored: last.stored(), by, in_start_delay: None, sends: 0, user: None })
    }

    /// What a voltages call shows of them: one that was stored is lost, unless the last send has it again.
    pub(super) fn rows(&self, last: &LastSend, is_starting: bool) -> Vec<(bool, Did)> {
        let now = last.stored();
        if !(0..4).any(|k| self.stored[k] && !now[k]) {
            return Vec::new();
        }
        let mut rows: Vec<_> = self.by.iter().map(|did| (true, *did)).collect();
        rows.extend(self.in_start_delay.map(|did| (is_starting, did)));
        rows.push((self.sends >= 10, Did::volts_lost_by_many_sends_in_one_record));
        rows
    }
}

impl Idled {
    fn by(&self) -> Vec<Did> {
        match *self {
            Idled::GroupEnd { by_command, with_start } => {
                let by = [Did::volts_lost_by_group_end_event, Did::volts_lost_by_group_end_command][by_command as usize];
                only(&[(true, by), (with_start, Did::volts_lost_by_group_end_with_start)]).collect()
            }
            Idled::Disarm => vec![Did::volts_lost_by_disarm],
            Idled::UserChange { .. } => vec![Did::volts_lost_by_user_change],
            Idled::Reset => vec![Did::volts_lost_by_reset],
        }
    }

    fn in_start_delay(&self) -> Did {
        match self {
            Idled::GroupEnd { .. } => Did::volts_lost_by_group_end_before_send,
            Idled::Disarm => Did::volts_lost_by_disarm_before_send,
            Idled::UserChange { .. } => Did::volts_lost_by_user_change_before_send,
            Idled::Reset => Did::volts_lost_by_reset_before_send,
        }
    }

    /// What there is to say of the other channels' readings. A user change idles them too.
    fn beside(&self) -> Option<Did> {
        match self {
            Idled::GroupEnd { .. } => Some(Did::volts_kept_over_group_end_of_other_channel),
            Idled::Disarm => Some(Did::volts_kept_over_disarm_of_other_channel),
            Idled::UserChange { .. } => None,
            Idled::Reset => Some(Did::volts_kept_over_reset_of_other_channel),
        }
    }

    fn user_before(&self) -> Option<u32> {
        if let Idled::UserChange { from, .. } = self { Some(*from) } else { None }
    }

    /// It brings back the user whose readings these were.
    fn is_back(&self, cleared: &Cleared) -> bool {
        matches!(self, Idled::UserChange { to, .. } if cleared.user == Some(*to))
    }
}

impl WatchedVolts {
    fn clear_by_send(&mut self, by: Did) {
        let before = self.cleared.take();
        self.cleared = match (Cleared::new(&self.last, vec![by]), before) {
            (Some(now), _) => Some(Cleared { sends: 1, ..now }),
            // a later send of the same record: which of them lost the readings is not told
            (None, Some(before)) if before.sends > 0 && before.sends < self.record.sends => {
                Some(Cleared { by: Vec::new(), sends: before.sends + 1, ..before })
            }
            _ => None,
        };
    }

    fn clear_by_idling(&mut self, idled: &Idled) {
        let before = self.cleared.take();
        let in_start_delay = Some(idled.in_start_delay());
        self.cleared = match (Cleared::new(&self.last, idled.by()), before) {
            (Some(now), _) => Some(Cleared { in_start_delay, user: idled.user_before(), ..now }),
            // between the two changes came nothing that would clear them; kept for each user, they would be told again
            (None, Some(before)) if idled.is_back(&before) => {
                let by = vec![Did::volts_lost_by_user_change_and_back];
                Some(Cleared { by, in_start_delay: None, user: None, ..before })
            }
            _ => None,
        };
    }
}

impl Board {
    /// Before a setpoint send.
    pub(in crate::board) fn watch_volts_send(&mut self, c: usize, sending: Sending) {
        if self.watched_volts.is_empty() {
            return;
        }
        self.watch_volts_beside(c, Did::volts_kept_over_send_of_other_channel);
        let (kind, before) = (sending.kind, self.rows_before_send(c));
        let is_repeat = matches!(kind, Kind::RepeatOfPause | Kind::RepeatInResumeDelay | Kind::RepeatOfLast);
        let watched = &mut self.watched_volts[c];
        watched.record.sends += 1;
        if watched.cleared.is_some() || watched.last.has_reading() {
            watched.clear_by_send(BY_SEND[kind as usize]);
        }
        watched.last.begin(is_repeat, before);
        watched.unasked = Unasked::default();
        watched.stood.clear();
    }

    /// Replies before the first send since idle, which take no place after it.
    fn rows_before_send(&self, c: usize) -> Vec<Did> {
        let unasked = &self.watched_volts[c].unasked;
        only(&[
            (unasked.while_idle > 0, Did::volts_of_send_after_unasked_while_idle),
            (unasked.in_start_delay > 0, Did::volts_of_send_after_unasked_in_start_delay),
            (replies_to_command(&self.ch[c]) > 0, Did::volts_of_send_after_command_replies),
        ])
        .collect()
    }

    /// Before a channel is idled.
    pub(in crate::board) fn watch_volts_idled(&mut self, c: usize, idled: Idled) {
        if let Some(did) = idled.beside() {
            self.watch_volts_beside(c, did);
        }
        let Some(watched) = self.watched_volts.get_mut(c) else { return };
        watched.clear_by_idling(&idled);
        *watched = WatchedVolts { cleared: watched.cleared.take(), record: watched.record, ..WatchedVolts::default() };
    }

    /// After an opening in the place of another board.
    pub fn watch_volts_opening(&mut self, before: &Board) {
        let by = if self.n == 0 { Did::volts_lost_by_refused_opening } else { Did::volts_lost_by_opening };
        for c in 0..4 {
            self.watched_volts[c].cleared = Cleared::new(&before.watched_volts[c].last, vec![by]);
        }
    }

    /// Something that leaves the channel's readings, if it has any.
    pub(in crate::board) fn watch_volts_kept(&mut self, c: usize, over: Did) {
        let Some(watched) = self.watched_volts.get_mut(c) else { return };
        if watched.last.has_reading() && !watched.stood.contains(&over) {
            watched.stood.push(over);
        }
    }

    /// Something on a channel that leaves the other channels' readings.
    pub(in crate::board) fn watch_volts_beside(&mut self, c: usize, over: Did) {
        (0..4).filter(|other| *other != c).for_each(|other| self.watch_volts_kept(other, over));
    }
}
