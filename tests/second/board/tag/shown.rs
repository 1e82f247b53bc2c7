//! What the corpus reaches of registers and tags: what 2C and 0C show, and events and commands that set no tag here.

use crate::board::life::Asked;
use crate::board::missing::MOST;
use crate::board::Board;
use crate::channel::TAG;
use crate::tally::Did;

#[derive(Clone, Default)]
pub struct Shown {
    /// 2C was last written with bits that are dropped.
    has_high_bits: bool,
    /// A reset cleared 2C, which was not written since.
    is_register_reset: bool,
    /// What tagged sends lacked is in the count of 0C.
    pub(super) has_tagged_shortfall: bool,
}

impl Shown {
    pub(super) fn has_high_bits(&self) -> bool {
        self.has_high_bits
    }
}

impl Board {
    /// Before a write to 2C.
    pub(in crate::board) fn watch_tag_register(&mut self, c: usize, value: u16) {
        self.watch_tag_kept(c, Did::tag_kept_over_register_write);
        let shown = &mut self.tags[c].shown;
        shown.has_high_bits = value > 0x1FF;
        shown.is_register_reset = false;
    }

    /// Before a read of a register's word, at half its offset.
    pub(in crate::board) fn tally_tag_register(&mut self, c: usize, at: usize) {
        if at != TAG {
            return;
        }
        let (is_set, shown) = (self.ch[c].w[TAG] != 0, &self.tags[c].shown);
        let (has_high_bits, is_reset) = (shown.has_high_bits, shown.is_register_reset);
        self.tally_rows(&[
            (is_set, Did::tag_register_read),
            (is_set && has_high_bits, Did::tag_register_read_without_high_bits),
            (is_reset, Did::tag_register_read_after_reset),
        ]);
    }

    /// After a read of 0C.
    pub(in crate::board) fn tally_tag_shortfall(&mut self, c: usize, count: u16) {
        let is = std::mem::take(&mut self.tags[c].shown.has_tagged_shortfall);
        // at its most it could be the same without them
        self.tally_if(is && count < MOST, Did::tag_send_with_shortfall);
    }

    /// After an event that was not refused.
    pub(in crate::board) fn watch_tag_event(&mut self, code: u8) {
        let active = 0x100 | code as u16;
        let is_tagged = self.ch.each_ref().map(|ch| ch.armed && ch.w[TAG] == active);
        let several = is_tagged.iter().filter(|is| **is).count() > 1;
        for c in 0..4 {
            // with a tag before it, this one shows nothing
            if is_tagged[c] && several && self.tags[c].times == 1 {
                self.watch_tag_kept(c, Did::tag_on_two_channels_at_once);
            }
            let is_of_other = is_tagged.contains(&true) && self.ch[c].w[TAG] != active;
            self.watch_tag_absent(c, is_of_other, Did::tag_event_of_other_channel);
            self.watch_tag_absent(c, self.ch[c].w[TAG] == code as u16, Did::tag_event_inactive);
        }
    }

    /// Commands D3.
    pub(super) fn watch_tag_command(&mut self, c: usize) {
        for other in (0..4).filter(|other| *other != c) {
            self.watch_tag_absent(other, self.ch[c].armed, Did::tag_command_of_other_channel);
        }
    }

    /// An event or command that is refused: it sets no tag, and drops none.
    pub(in crate::board) fn watch_tag_refused(&mut self, c: usize, asked: Asked) {
        let [not_set, not_dropped] = if asked.by_command {
            [Did::tag_command_refused, Did::tag_kept_over_refused_drop_by_command]
        } else {
            [Did::tag_event_refused, Did::tag_kept_over_refused_drop_by_event]
        };
        self.watch_tag_absent(c, asked.tag, not_set);
        // a tag that it sets would stand for one that it drops
        if asked.group_end && !asked.tag {
            self.watch_tag_kept(c, not_dropped);
        }
    }

    /// Something that sets no tag.
    fn watch_tag_absent(&mut self, c: usize, is: bool, why: Did) {
        if is && self.ch[c].armed && !self.ch[c].is_tag_pending {
            self.tags[c].absent.push(why);
        }
    }

    /// After an opening in the place of another board.
    pub fn watch_tag_opening(&mut self, before: &Board) {
        for c in (0..4).filter(|c| before.ch[*c].is_tag_pending) {
            self.tags[c].absent.push(Did::tag_dropped_by_opening);
        }
    }

    /// Before a reset.
    pub(super) fn watch_tag_reset(&mut self, c: usize) {
        let is_register_reset = self.ch[c].w[TAG] != 0 || self.tags[c].shown.is_register_reset;
        self.tags[c].shown = Shown { is_register_reset, ..Shown::default() };
    }
}
