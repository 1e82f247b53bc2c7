//! Tagged readbacks: document 02, request 6, whose quotations these are.

mod reached;
mod sends;
mod shown;
mod words;

pub use self::reached::{Dropped, Tags};
use super::life::Asked;
use super::sending::Sending;
use super::Board;
use crate::tally::Did;

impl Board {
    /// "A tag event or Commands D3 on an armed channel marks the next setpoint send."
    pub(super) fn tag(&mut self, c: usize, asked: &Asked) {
        self.watch_tag(c, asked);
        self.watch_left(c, Did::volts_kept_over_tag, Did::download_kept_over_tag);
        if self.ch[c].armed {
            self.ch[c].is_tag_pending = true;
        }
    }

    /// "Group End, disarm and reset drop a tag not yet used."
    pub(super) fn drop_tag(&mut self, c: usize, by: Dropped) {
        self.watch_tag_dropped(c, by);
        self.ch[c].is_tag_pending = false;
    }

    /// Whether a setpoint send is tagged. The tag is then used, so that "the send after it ends the mark".
    pub(super) fn use_tag(&mut self, c: usize, sending: Sending) -> bool {
        let is_tagged = std::mem::take(&mut self.ch[c].is_tag_pending);
        self.watch_tag_used(c, sending, is_tagged);
        is_tagged
    }
}
