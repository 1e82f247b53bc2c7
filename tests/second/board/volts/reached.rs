//! What the corpus reaches of readings in volts: counted at a voltages call, where its answer would be another if what
//! is counted were otherwise.

use super::kept::Cleared;
use super::places::LastSend;
use crate::board::command::replies_to_command;
use crate::board::record::Record;
use crate::board::Board;
use crate::tally::Did;
use crate::volts::Reading;

/// What the tally remembers of a channel's readings. It outlives a reset.
#[derive(Clone, Default)]
pub struct WatchedVolts {
    pub(super) last: LastSend,
    /// The readings before the last send, or before the channel was idled.
    pub(super) cleared: Option<Cleared>,
    /// What the readings stood through.
    pub(super) stood: Vec<Did>,
    pub(super) unasked: Unasked,
    pub(super) record: Record,
}

/// Replies that were unasked since the channel was idled.
#[derive(Clone, Default)]
pub(super) struct Unasked {
    pub(super) while_idle: u32,
    pub(super) in_start_delay: u32,
}

impl Board {
    /// Of a script's board. No record of a run file asks for voltages, so there the tally is spared their memory.
    pub fn watch_volts(&mut self) {
        self.watched_volts = vec![WatchedVolts::default(); 4];
    }

    /// Before a record of ticks.
    pub fn watch_volts_record(&mut self) {
        for watched in &mut self.watched_volts {
            watched.record = Record::new(self.now, watched.last.has_reading());
        }
    }

    /// A voltages call that is refused.
    pub(super) fn tally_voltages_refused(&mut self, c: u32) {
        self.tally_rows(&[
            (c == 0, Did::volts_refused_channel_0),
            (c == 5, Did::volts_refused_channel_5),
            (c == 255, Did::volts_refused_channel_255),
            (c > 7 && (1..=4).contains(&(c & 7)), Did::volts_refused_with_low_bits_of_channel),
            (self.n == 0, Did::volts_refused_on_closed_board),
        ]);
    }

    /// Before a voltages call is answered with these readings.
    pub(super) fn tally_voltages(&mut self, c: usize, told: [Reading; 4]) {
        if self.watched_volts.is_empty() {
            return;
        }
        let is_starting = self.ch[c].function.as_ref().is_some_and(|f| f.sent.is_none());
        let mut rows = self.rows_of_send(c);
        let watched = &mut self.watched_volts[c];
        // what is counted is of this answer
        assert_eq!(watched.last.told(), told);
        rows.extend(watched.cleared.iter().flat_map(|cleared| cleared.rows(&watched.last, is_starting)));
        let mut shown = watched.last.take_rows();
        shown.append(&mut watched.stood);
        rows.extend(shown.into_iter().map(|did| (true, did)));
        rows.extend(self.rows_of_asking(c));
        rows.extend(self.rows_of_channels(c));
        self.tally_rows(&rows);
        let last = &mut self.watched_volts[c].last;
        last.asked = Some(last.replies.len());
    }

    /// What is told of the last send since idle, or that there is none.
    fn rows_of_send(&self, c: usize) -> Vec<(bool, Did)> {
        let WatchedVolts { last, unasked, .. } = &self.watched_volts[c];
        // in a full buffer an unasked reply would be lost, if it were not unasked
        let (ch, has_room) = (&self.ch[c], !self.is_full(c));
        let Some(f) = &ch.function else {
            return vec![
                (true, Did::volts_while_idle),
                (self.n == 0, Did::volts_of_closed_board),
                (unasked.while_idle > 2 && has_room, Did::volts_while_idle_after_unasked),
                (replies_to_command(ch) > 2, Did::volts_while_idle_after_command_replies),
            ];
        };
        let Some(sent) = f.sent else {
            return vec![
                (true, Did::volts_in_start_delay),
                (unasked.in_start_delay > 2 && has_room, Did::volts_in_start_delay_after_unasked),
                (replies_to_command(ch) > 2, Did::volts_in_start_delay_after_command_replies),
            ];
        };
        let is_read = last.voltages().next().is_some();
        let kinds = [
            (sent.flags >> 29 == 0, Did::volts_of_plain_word),
            (sent.flags >> 31 & 1 == 1, Did::volts_of_first_word),
            (sent.flags >> 30 & 1 == 1, Did::volts_of_paused_word),
            (sent.flags >> 29 & 1 == 1, Did::volts_of_last_word),
            (last.is_repeat, Did::volts_of_repeat),
            (sent.flags >> 26 & 7 != 0, Did::volts_of_other_user),
            (sent.is_tagged, Did::volts_of_tagged_send),
            (sent.id == 0x15, Did::volts_of_send_of_id_15),
            (sent.id != 0x15, Did::volts_of_send_of_other_id),
        ];
        let mut rows = last.rows();
        rows.extend(kinds.map(|(is, did)| (is && is_read, did)));
        rows.push((self.m == 1 && last.replies.len() == 6, Did::volts_of_depth_1));
        rows
    }

    /// What is told of this call beside the one before it, and beside the ticks before it.
    fn rows_of_asking(&self, c: usize) -> Vec<(bool, Did)> {
        let WatchedVolts { last, record, .. } = &self.watched_volts[c];
        let is_again = last.has_reading() && last.asked == Some(last.replies.len());
        let is_long = last.has_reading() && record.is_long(self.now);
        vec![(is_again, Did::volts_asked_again), (is_long, Did::volts_kept_through_many_ticks)]
    }

    /// What is told of the channel among the others.
    fn rows_of_channels(&self, c: usize) -> Vec<(bool, Did)> {
        let own = self.watched_volts[c].last.told();
        let is_read = self.watched_volts[c].last.voltages().next().is_some();
        let others = || (0..4).filter(|other| *other != c).map(|other| &self.watched_volts[other].last);
        let is_beside = others().any(|other| other.has_reading() && other.told() != own);
        let of_channel = [Did::volts_of_channel_1, Did::volts_of_channel_2, Did::volts_of_channel_3, Did::volts_of_channel_4];
        vec![
            (is_read, of_channel[c]),
            (is_read && is_beside, Did::volts_beside_other_readings),
            (!self.watched_volts[c].last.has_reading() && is_beside, Did::volts_lost_beside_other_readings),
        ]
    }
}
