//! Copies of a board, on which the tally of roles tries what would have come of it if a call had gone otherwise.

use super::Board;
use crate::channel::Channel;

impl Channel {
    /// What is due is due so many ticks later.
    fn delay_by(&mut self, ticks: u64) {
        if let Some(f) = &mut self.function {
            f.due += ticks;
            f.resume.iter_mut().for_each(|at| *at += ticks);
        }
        if let Some(due) = self.waiting.as_mut().and_then(|waiting| waiting.due.as_mut()) {
            *due += ticks;
        }
    }
}

impl Board {
    /// A copy of which nothing was counted or watched so far.
    pub fn unwatched(&self) -> Board {
        let Board { user, now, level, vector, enable, main, .. } = *self;
        let ch = self.ch.clone();
        Board { user, now, level, vector, enable, main, ch, ..Board::blank(self.n, self.m, self.access) }
    }

    /// A copy on which the ticks since an earlier copy did not come to a channel: it sent nothing, and is as it was.
    pub fn without_ticks(&self, before: &Board, c: usize) -> Board {
        let mut board = self.unwatched();
        board.ch[c] = before.ch[c].clone();
        board.ch[c].delay_by(self.now - before.now);
        let bit = 0x10 << c;
        for (main, before) in board.main.iter_mut().zip(before.main) {
            *main = *main & !bit | before & bit;
        }
        board
    }
}
