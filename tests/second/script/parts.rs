//! The calls of a script that are lent two buffers, and answer a part of one.

use super::Bench;
use crate::answer::{answer, Answer};
use crate::board::Portion;
use crate::role::Role;
use crate::tally::Did;

impl Bench {
    /// The first word and length of the two buffers lent to a retired call or a portion.
    fn two(&self, c: u32, code: u8) -> [(usize, usize); 2] {
        let m = self.board.m as usize;
        let own = if (1..=4).contains(&c) { c as usize - 1 } else { 0 };
        let of = |c: usize| [(2 * c * m, m), ((2 * c + 1) * m, m)];
        let [(a, _), (b, _)] = of(own);
        let short = m.saturating_sub(1);
        match code {
            1 => [(a, short), (b, m)],
            2 => [(a, 0), (b, 0)],
            3 => of((own + 1) % 4),
            4 => [(a, m), (b, short)],
            5 => [(b, m), (a, m)],
            6 => [(a, m + 1), (b, m)],
            7 => [(a, short), (a + short, m + 1)],
            _ => [(a, m), (b, m)],
        }
    }

    pub(super) fn retired(&mut self, role: Role, c: u32, code: u8, is_length: bool) -> Answer {
        let two = self.two(c, code);
        let readbacks = &self.readbacks;
        let [first, second] = two.map(|(from, len)| &readbacks[from..from + len]);
        let told = self.board.retired(role, c, first, second);
        if is_length {
            return answer(told, |(_, length)| Answer::Length(length));
        }
        // "gives the empty part when refused"
        let Ok((is_second, length)) = told else { return Answer::Part(Vec::new()) };
        let part = &(if is_second { second } else { first })[..length];
        self.board.tally_tag_part(c, part);
        Answer::Part(part.to_vec())
    }

    pub(super) fn portion(&mut self, role: Role, asked: Portion, code: u8) -> Answer {
        let [lent, own] = [code, 0].map(|code| self.two(asked.c, code));
        let readbacks = &self.readbacks;
        let [lent, own] = [lent, own].map(|two| two.map(|(from, len)| &readbacks[from..from + len]));
        let told = self.board.portion(role, asked, lent);
        if asked.is_length {
            return answer(told, |words| Answer::Length(words.len()));
        }
        // "gives the empty part when refused"
        let Ok(words) = told else { return Answer::Part(Vec::new()) };
        // the channel's own buffers have others there
        if self.board.find_portion(role, asked, own) != Ok(words) {
            let swapped = code == 5;
            self.board.tally.add(if swapped { Did::download_words_swapped } else { Did::download_words_of_next_channel });
        }
        Answer::Part(words.to_vec())
    }
}
