//! What the corpus reaches of ticks: the frames that a role is shown, and those that it is not.

use super::asked::Asked;
use super::counterfactual::Shows;
use super::rows::Row;
use super::Roles;
use crate::answer::Answer;
use crate::script::Bench;

/// A frame in the answer to ticks: tick, channel 1–4, frame.
type Sent = (u32, usize, u64);

/// So many frames are many for one record.
const MANY: usize = 10;

impl Roles {
    /// After a call, with the bench before it and after it.
    pub(super) fn watch_frames(&mut self, asked: &Asked, before: &Bench, after: &Bench) {
        let (Answer::Ticks(shown), Answer::Ticks(all)) = (asked.told, &asked.to_examiner) else { return };
        let is_shown = |sent: &&Sent| shown.iter().any(|other| other.1 == sent.1);
        let hidden: Vec<Sent> = all.iter().filter(|sent| !is_shown(sent)).copied().collect();
        for c in 0..4 {
            let has = |frames: &[Sent]| frames.iter().any(|sent| sent.1 == c + 1);
            self.count_if(asked.own.0 == 1 << c && has(shown), Row::Shown(c));
            self.count_if(asked.own.0 == !(1 << c) && has(&hidden), Row::Hidden(c));
        }
        let is_beside = hidden.iter().any(|sent| shown.iter().any(|other| other.0 == sent.0));
        self.count_if(is_beside, Row::HiddenBesideShown);
        self.count_if(shown.is_empty() && !hidden.is_empty(), Row::HiddenAll);
        self.count_if(shown.len() >= MANY && hidden.len() >= MANY, Row::HiddenManyInOneRecord);
        self.watch_hidden(&hidden, before, after);
    }

    /// That frames which were not shown count as sent is told by what would be answered if they had not left. Where both
    /// kinds of frames were hidden it is not told of which it is.
    fn watch_hidden(&mut self, hidden: &[Sent], before: &Bench, after: &Bench) {
        let commands = hidden.iter().filter(|sent| sent.0 == 1 && before.board.peek(sent.1 - 1).command_is_due).count();
        if hidden.is_empty() || (commands > 0 && commands < hidden.len()) {
            return;
        }
        let mut bench = after.unwatched();
        for c in (0..4).filter(|c| hidden.iter().any(|sent| sent.1 == c + 1)) {
            bench.board = bench.board.without_ticks(&before.board, c);
        }
        self.counterfactuals.add(bench, Shows::Sent { is_command: commands > 0 });
    }
}
