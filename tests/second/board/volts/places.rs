//! What the corpus reaches of the replies that readings are of: their places, and those that take no place.

use super::reached::WatchedVolts;
use crate::board::rows::only;
use crate::board::Board;
use crate::tally::Did;
use crate::volts::{voltage, Reading};
use std::collections::BTreeSet;

/// What the tally remembers of a channel's last send since idle. It is told from the replies and their answers, and not
/// from what a voltages call would answer.
#[derive(Clone, Default)]
pub struct LastSend {
    pub(super) is_repeat: bool,
    /// Kept or lost, at most six.
    pub(super) replies: Vec<Placed>,
    /// What there is to say of the last reply since the sixth.
    seventh: Option<Did>,
    /// Refused replies: the number of replies before each, and by which number.
    refused: Vec<(usize, Did)>,
    /// What came before the send, until a reading shows that it took no place.
    before: Vec<Did>,
    /// The number of replies before the last voltages call.
    pub(super) asked: Option<usize>,
}

/// A reply that was kept or lost, and so has a place.
#[derive(Clone)]
pub struct Placed {
    data: u16,
    wrong: bool,
    is_stored: bool,
    /// What there is to say of it if it is a voltage.
    rows: Vec<Did>,
}

impl Placed {
    fn is_voltage(&self) -> bool {
        self.is_stored && !self.wrong
    }
    fn is_damaged(&self) -> bool {
        self.is_stored && self.wrong
    }
    fn reading(&self) -> Reading {
        match (self.is_stored, self.wrong) {
            (false, _) => Reading::Lost,
            (true, true) => Reading::Damaged,
            (true, false) => Reading::Volts(voltage(self.data)),
        }
    }
}

/// By place, from the third reply on: a voltage, damaged, and lost with a right CRC and with a wrong one.
const PLACES: [[Did; 4]; 4] = [
    [Did::volts_third_read, Did::volts_third_damaged, Did::volts_third_lost, Did::volts_third_lost_crc_wrong],
    [Did::volts_fourth_read, Did::volts_fourth_damaged, Did::volts_fourth_lost, Did::volts_fourth_lost_crc_wrong],
    [Did::volts_fifth_read, Did::volts_fifth_damaged, Did::volts_fifth_lost, Did::volts_fifth_lost_crc_wrong],
    [Did::volts_sixth_read, Did::volts_sixth_damaged, Did::volts_sixth_lost, Did::volts_sixth_lost_crc_wrong],
];
/// By the number of replies, the last of them stored.
const AFTER: [Did; 7] = [
    Did::volts_after_no_reply, Did::volts_after_1_reply, Did::volts_after_2_replies, Did::volts_after_3_replies,
    Did::volts_after_4_replies, Did::volts_after_5_replies, Did::volts_after_6_replies,
];
/// By the first reply that was lost.
const FULL: [Did; 6] = [
    Did::volts_lost_from_first, Did::volts_lost_from_second, Did::volts_lost_from_third, Did::volts_lost_from_fourth,
    Did::volts_lost_from_fifth, Did::volts_lost_from_sixth,
];
const CODES: [(u16, Did); 5] = [
    (0, Did::volts_code_0), (1, Did::volts_code_1), (0x7FFF, Did::volts_code_most), (0x8000, Did::volts_code_least),
    (0xFFFF, Did::volts_code_minus_1),
];

impl LastSend {
    /// A send takes the place of the one before. It is met in millions of ticks, so that the lists are used again.
    pub(super) fn begin(&mut self, is_repeat: bool, before: Vec<Did>) {
        self.is_repeat = is_repeat;
        self.replies.clear();
        self.seventh = None;
        self.refused.clear();
        self.before = before;
        self.asked = None;
    }

    /// The replies that are readings, none before the third.
    fn readings(&self) -> &[Placed] {
        self.replies.get(2..).unwrap_or(&[])
    }

    /// Which of the four are stored.
    pub(super) fn stored(&self) -> [bool; 4] {
        std::array::from_fn(|k| self.readings().get(k).is_some_and(|reply| reply.is_stored))
    }

    pub(super) fn has_reading(&self) -> bool {
        self.readings().iter().any(|reply| reply.is_stored)
    }

    /// What a voltages call has to answer.
    pub(super) fn told(&self) -> [Reading; 4] {
        std::array::from_fn(|k| self.readings().get(k).map_or(Reading::Lost, Placed::reading))
    }

    pub(super) fn voltages(&self) -> impl Iterator<Item = u16> + '_ {
        self.readings().iter().filter(|reply| reply.is_voltage()).map(|reply| reply.data)
    }

    fn is_stored(&self, at: usize) -> bool {
        self.replies.get(at).is_some_and(|reply| reply.is_stored)
    }

    /// What a voltages call shows of the replies.
    pub(super) fn rows(&self) -> Vec<(bool, Did)> {
        let count = self.replies.len();
        let mut rows = vec![(count == 0 || self.is_stored(count - 1), AFTER[count])];
        for (reply, place) in self.readings().iter().zip(PLACES) {
            rows.push((true, place[2 * !reply.is_stored as usize + reply.wrong as usize]));
        }
        if let Some(first) = self.replies.iter().position(|reply| !reply.is_stored) {
            rows.push((count > 2, FULL[first]));
        }
        rows.extend(self.voltages().flat_map(|data| CODES.map(|(code, did)| (code == data, did))));
        rows.extend(self.rows_of_neighbours());
        rows.extend(self.refused.iter().map(|&(before, did)| (self.is_stored(before), did)));
        rows
    }

    fn rows_of_neighbours(&self) -> Vec<(bool, Did)> {
        let readings = self.readings();
        let has_pair = |of: [fn(&Placed) -> bool; 2]| readings.windows(2).any(|pair| of[0](&pair[0]) && of[1](&pair[1]));
        let data: BTreeSet<u16> = self.replies.iter().map(|reply| reply.data).collect();
        let starts_wrong = self.replies.iter().take(2).any(|reply| reply.wrong);
        vec![
            (data.len() == 6 && readings.iter().all(Placed::is_voltage), Did::volts_four_at_once),
            (readings.len() == 4 && readings.iter().all(Placed::is_damaged), Did::volts_four_damaged),
            (has_pair([Placed::is_damaged, Placed::is_voltage]), Did::volts_read_after_damaged),
            (has_pair([Placed::is_voltage, Placed::is_damaged]), Did::volts_read_before_damaged),
            (starts_wrong && readings.first().is_some_and(Placed::is_voltage), Did::volts_read_after_wrong_first_two),
        ]
    }

    /// What is shown and then no longer counted: with each voltage what there is to say of its reply, with the third
    /// reading what came before the send, with the sixth what came after it.
    pub(super) fn take_rows(&mut self) -> Vec<Did> {
        let mut rows = Vec::new();
        if self.is_stored(2) {
            rows.append(&mut self.before);
        }
        for reply in self.replies.iter_mut().skip(2).filter(|reply| reply.is_voltage()) {
            rows.append(&mut reply.rows);
        }
        rows.extend(self.seventh.take());
        rows
    }
}

impl Board {
    /// A reply that is kept or lost.
    pub(in crate::board) fn watch_volts_reply(&mut self, c: usize, reply: u64, wrong: bool, is_stored: bool) {
        if self.watched_volts.is_empty() {
            return;
        }
        let f = self.ch[c].function.as_ref();
        let rows = only(&[
            (f.is_some_and(|f| f.fresh), Did::volts_read_in_new_start_delay),
            (f.is_some_and(|f| f.resume.is_some()), Did::volts_read_while_resuming),
            (self.ch[c].is_tag_pending, Did::volts_read_while_tag_is_pending),
            (reply >> 10 & 0xFF != 0, Did::volts_of_reply_with_auxiliary),
            (reply >> 34 & 0xFF != 0x15, Did::volts_of_reply_of_other_id),
            (self.watched_volts[c].last.asked.is_some(), Did::volts_asked_between_replies),
        ])
        .collect();
        let replies = &mut self.watched_volts[c].last.replies;
        replies.push(Placed { data: (reply >> 18) as u16, wrong, is_stored, rows });
        // the first two, and those that are lost, would change no reading of any channel
        if is_stored && replies.len() > 2 {
            self.watch_volts_beside(c, Did::volts_kept_over_reply_of_other_channel);
        }
    }

    /// A reply that is unasked.
    pub(in crate::board) fn watch_volts_unasked(&mut self, c: usize, reply: u64, wrong: bool, why: Did) {
        let Some(watched) = self.watched_volts.get_mut(c) else { return };
        match why {
            Did::unasked_idle => watched.unasked.while_idle += 1,
            Did::unasked_before_send => watched.unasked.in_start_delay += 1,
            Did::unasked_seventh => watched.last.watch_seventh((reply >> 18) as u16, wrong),
            _ => {}
        }
    }

    /// A reply that is refused, though one is due whose place is a reading.
    pub(in crate::board) fn watch_volts_refused(&mut self, c: usize, did: Did) {
        let Some(WatchedVolts { last, .. }) = self.watched_volts.get_mut(c) else { return };
        if (2..6).contains(&last.replies.len()) {
            last.refused.push((last.replies.len(), did));
        }
    }
}

impl LastSend {
    /// In the place of the sixth this reply would be told, and not the ones before it; where it is like the sixth, nothing
    /// would show.
    fn watch_seventh(&mut self, data: u16, wrong: bool) {
        let Some(sixth) = self.replies.last() else { return };
        self.seventh = match (sixth.is_stored, sixth.wrong, wrong) {
            (false, ..) => Some(Did::volts_after_seventh_when_sixth_is_lost),
            (true, true, true) => None,
            (true, true, false) => Some(Did::volts_after_seventh_when_sixth_is_damaged),
            (true, false, true) => Some(Did::volts_after_seventh_with_wrong_crc),
            (true, false, false) if sixth.data == data => None,
            (true, false, false) => Some(Did::volts_after_seventh),
        };
    }
}
