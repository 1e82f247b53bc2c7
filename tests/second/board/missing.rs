//! Counting readbacks that never came: document 02, request 2, whose quotations these are.

use super::Board;
use crate::channel::{Function, Hold, Sent, Window, ENABLE, ID, MISSING, MR, REPLIED};
use crate::tally::Did;

/// "The count stays at 255."
pub(super) const MOST: u16 = 255;

/// What is short of six after a send: "If that one carried Frame ID 15h and got fewer than six replies".
fn shortfall(sent: Sent) -> u16 {
    if sent.id == 0x15 { 6 - sent.replies as u16 } else { 0 }
}

impl Board {
    /// That of the channel's last send since idle; 0 if there is none.
    pub(super) fn shortfall(&self, c: usize) -> u16 {
        self.ch[c].function.as_ref().and_then(|f| f.sent).map_or(0, shortfall)
    }

    /// "Each setpoint send first looks at the setpoint send before it since idle."
    pub(super) fn look_back(&mut self, c: usize, is_next: bool) {
        self.tally_look_back(c, is_next);
        let short = self.shortfall(c);
        if short == 0 {
            return;
        }
        // "the shortfall is added to the count"
        let count = &mut self.ch[c].w[MISSING];
        *count = (*count + short).min(MOST);
        // "Each shortfall latches D4 of both channel statuses."
        self.latch(c, MR);
    }

    /// "Read-only register 0C shows it and a read clears it."
    pub(super) fn read_missing(&mut self, c: usize) -> u16 {
        let shown = std::mem::take(&mut self.ch[c].w[MISSING]);
        self.tally_count_read(c, shown);
        shown
    }
}

/// What the tally remembers of a channel. It outlives a reset.
#[derive(Clone, Default)]
pub struct Watch {
    /// The last send was a repeat.
    is_repeat: bool,
    /// The replies to it that were lost.
    pub(super) lost: u32,
    /// The Frame ID of the last command frame.
    pub(super) command_id: u8,
    /// What idled the channel, where its last send before that has a shortfall.
    idled: Option<Did>,
    /// The tick of the last shortfall.
    short_at: u64,
    /// What the count has stood through since.
    stood: Vec<Did>,
    /// What cleared the count, with no shortfall since.
    cleared: Option<Did>,
    /// D4 was read away since.
    is_d4_read: bool,
    record: Record,
}

/// The sends of one record of ticks that looked at a send: how many, and the shortfall that the first found.
#[derive(Clone, Copy, Default)]
struct Record {
    looks: u32,
    first: u16,
}

/// What the corpus reaches of it.
impl Board {
    fn tally_look_back(&mut self, c: usize, is_next: bool) {
        let Some(f) = self.ch[c].function.clone() else { return };
        match f.sent {
            None => self.tally_nothing_before(c),
            Some(sent) => self.tally_looked_at(c, sent),
        }
        let short = self.shortfall(c);
        if short > 0 {
            self.tally_send(c, &f, is_next);
            self.tally_count(c, short);
            self.tally_latch(c);
        }
        if f.sent.is_some() {
            self.tally_record(c, short);
        }
        let watch = &mut self.watch[c];
        watch.is_repeat = !is_next;
        watch.lost = 0;
        if short > 0 {
            watch.short_at = self.now;
            watch.stood.clear();
            watch.cleared = None;
            watch.is_d4_read = false;
        }
    }

    /// The first send since idle.
    fn tally_nothing_before(&mut self, c: usize) {
        let idled = self.watch[c].idled.take();
        if self.ch[c].window == Window::Open {
            let replies = self.ch[c].w[REPLIED];
            let is_short = self.watch[c].command_id == 0x15 && replies < 6;
            self.tally_if(is_short, Did::missing_command_before);
            self.tally_if(idled.is_some() && replies > 0, Did::missing_command_replies_before);
        }
        if let Some(by) = idled {
            self.tally.add(by);
        }
    }

    /// The send that is looked at.
    fn tally_looked_at(&mut self, c: usize, sent: Sent) {
        let (is_with_read, is_short, is_lost) = (sent.id == 0x15, sent.replies < 6, self.watch[c].lost > 0);
        let is_now_with_read = self.ch[c].w[ID] == 0x15;
        let by_number = [Did::missing_6, Did::missing_5, Did::missing_4, Did::missing_3, Did::missing_2, Did::missing_1];
        if is_with_read && is_short {
            self.tally.add(by_number[sent.replies as usize]);
        }
        self.tally_rows(&[
            (is_with_read && !is_short, Did::missing_none_of_six),
            (!is_with_read && is_short, Did::missing_other_id),
            (is_with_read && is_short && !is_now_with_read, Did::missing_id_changed_from_15),
            (!is_with_read && is_short && is_now_with_read, Did::missing_id_changed_to_15),
            (is_with_read && is_short && is_lost, Did::missing_with_lost_reply),
            (is_with_read && !is_short && is_lost, Did::missing_none_with_lost_reply),
        ]);
    }

    /// The send that finds a shortfall, before its word is known.
    fn tally_send(&mut self, c: usize, f: &Function, is_next: bool) {
        let hold = f.held.map(|(_, h)| h);
        let is_pause = matches!(hold, Some(Hold::Pause(_)));
        let has_replies = f.sent.is_some_and(|s| s.replies > 0);
        let (now, is_repeat) = (self.now, self.watch[c].is_repeat);
        let is_at_once = (0..4).any(|other| other != c && self.watch[other].short_at == now);
        self.tally_rows(&[
            (is_next && hold.is_none() && !f.fresh, Did::missing_at_next_word),
            (!is_next && is_pause, Did::missing_at_repeat_of_pause),
            (!is_next && hold == Some(Hold::Last), Did::missing_at_repeat_of_last),
            (!is_next && is_repeat, Did::missing_repeat_after_repeat),
            (is_next && is_pause, Did::missing_across_resume),
            (f.fresh, Did::missing_across_restart),
            (f.fresh && has_replies, Did::missing_across_restart_with_replies),
            (is_at_once, Did::missing_on_two_channels_at_once),
        ]);
    }

    /// Its word is a pause or the last, sent for the first time.
    pub(super) fn tally_missing_with_hold(&mut self, c: usize, h: Hold) {
        if self.watch[c].short_at == self.now {
            self.tally.add(if h == Hold::Last { Did::missing_with_eof } else { Did::missing_with_pause });
        }
    }

    /// Before a shortfall is added.
    fn tally_count(&mut self, c: usize, short: u16) {
        let [_, interrupt, polling, ..] = self.ch[c].w;
        let (count, is_clear) = (self.ch[c].w[MISSING], interrupt & polling & MR == 0);
        self.tally_rows(&[
            (count < MOST && count + short >= MOST, Did::missing_reaches_255),
            (count < MOST && count + short > MOST, Did::missing_cut_to_255),
            (count == MOST, Did::missing_stays_255),
            (count == MOST && is_clear, Did::missing_latched_at_255),
            (count < MOST && count + short >= MOST && self.watch[c].record.looks >= 10, Did::missing_reaches_255_in_one_record),
        ]);
    }

    /// Before D4 is latched.
    fn tally_latch(&mut self, c: usize) {
        let is_enabled = self.ch[c].w[ENABLE] & MR != 0;
        let is_main_clear = (self.main[0] | self.main[1]) & 0x10 << c == 0;
        self.tally_rows(&[
            (self.watch[c].is_d4_read, Did::missing_latched_again),
            (is_enabled && is_main_clear, Did::missing_main_bit_raised),
            (!is_enabled && is_main_clear, Did::missing_main_bit_not_enabled),
        ]);
    }

    fn tally_record(&mut self, c: usize, short: u16) {
        let Record { looks, first } = self.watch[c].record;
        let is_second_six = looks == 1 && short == 6;
        self.tally_rows(&[
            (is_second_six && first == 0, Did::missing_none_then_six_in_one_record),
            (is_second_six && (1..6).contains(&first), Did::missing_some_then_six_in_one_record),
            (looks == 9 && short == 6, Did::missing_many_in_one_record),
        ]);
        self.watch[c].record = Record { looks: looks + 1, first: if looks == 0 { short } else { first } };
    }

    /// Before a record of ticks.
    pub fn watch_record(&mut self) {
        self.watch.iter_mut().for_each(|w| w.record = Record::default());
    }

    /// Before a channel is idled.
    pub(super) fn watch_idling(&mut self, c: usize, idled: Did, stood: Did) {
        if self.shortfall(c) > 0 {
            self.watch[c].idled = Some(idled);
        }
        if self.ch[c].w[MISSING] > 0 {
            self.watch[c].stood.push(stood);
        }
    }

    /// Before a reset.
    pub(super) fn watch_reset(&mut self, c: usize) {
        if self.shortfall(c) > 0 {
            self.watch[c].idled = Some(Did::missing_idled_by_reset);
        }
        self.watch_cleared(c, self.ch[c].w[MISSING], Did::missing_cleared_by_reset);
    }

    /// After an opening in the place of another board.
    pub fn watch_opening(&mut self, before: &Board) {
        for c in 0..4 {
            self.watch_cleared(c, before.ch[c].w[MISSING], Did::missing_cleared_by_opening);
        }
    }

    fn watch_cleared(&mut self, c: usize, count: u16, by: Did) {
        if count > 0 {
            self.watch[c].cleared = Some(by);
            self.watch[c].stood.clear();
        }
    }

    /// After a read of 02 or 04.
    pub(super) fn watch_status_read(&mut self, c: usize, latched: u16) {
        if latched & MR == 0 {
            return;
        }
        let is_count_read = matches!(self.watch[c].cleared, Some(Did::missing_cleared_by_read));
        self.tally_if(is_count_read, Did::missing_d4_kept_over_count_read);
        self.watch[c].is_d4_read = true;
        if self.ch[c].w[MISSING] > 0 {
            self.watch[c].stood.push(Did::missing_kept_over_status_read);
        }
    }

    /// After a read of 0C.
    fn tally_count_read(&mut self, c: usize, shown: u16) {
        if shown == 0 {
            if let Some(by) = self.watch[c].cleared {
                self.tally.add(by);
            }
            return;
        }
        self.tally.add(Did::missing_count_read);
        self.tally_if(shown == MOST, Did::missing_255_read);
        for did in std::mem::take(&mut self.watch[c].stood) {
            self.tally.add(did);
        }
        self.watch_cleared(c, shown, Did::missing_cleared_by_read);
    }

    /// A write to 0C is refused as one to a read-only register.
    pub(super) fn tally_missing_written(&mut self, address: u32) {
        self.tally_if(address % 0x800 == 0x0C, Did::missing_count_written);
    }
}
