//! A setpoint send as the tally sees it.

use super::Board;
use crate::channel::{Function, Hold};

/// A setpoint send, before its word is known.
#[derive(Clone, Copy)]
pub struct Sending {
    pub kind: Kind,
    /// The send before it was tagged.
    pub is_after_tagged: bool,
    /// It finds readbacks missing.
    pub is_short: bool,
}

#[derive(Clone, Copy, PartialEq, Eq, PartialOrd, Ord, Debug)]
pub enum Kind {
    FirstWord,
    NextWord,
    WordAfterResume,
    RepeatOfPause,
    RepeatInResumeDelay,
    RepeatOfLast,
}

fn kind(f: &Function, is_next: bool) -> Kind {
    match (f.held, is_next) {
        _ if f.fresh => Kind::FirstWord,
        (None, _) => Kind::NextWord,
        (Some(_), true) => Kind::WordAfterResume,
        (Some((_, Hold::Last)), _) => Kind::RepeatOfLast,
        _ if f.resume.is_some() => Kind::RepeatInResumeDelay,
        _ => Kind::RepeatOfPause,
    }
}

impl Board {
    /// Before a setpoint send.
    pub(super) fn sending(&self, c: usize, is_next: bool) -> Sending {
        let f = self.ch[c].function.as_ref();
        Sending {
            kind: f.map_or(Kind::FirstWord, |f| kind(f, is_next)),
            is_after_tagged: f.and_then(|f| f.sent).is_some_and(|sent| sent.is_tagged),
            is_short: self.shortfall(c) > 0,
        }
    }
}
