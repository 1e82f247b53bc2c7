//! What the corpus reaches of ramps. It is told from what the call is given, not from what it answers or writes.

use super::Breakpoint;
use crate::board::Board;
use crate::tally::Did;

/// What a call is given.
pub struct Asked<'a> {
    pub points: &'a [Breakpoint],
    pub n: u32,
    pub codes: &'a [u32],
    pub remainders: &'a [u32],
}

/// The rules that a call can break. A list of no breakpoints has no first index and no last.
#[derive(Clone, Copy, PartialEq)]
enum Rule {
    Count,
    Depth,
    First,
    Rising,
    Last,
    Codes,
    Remainders,
}

type Rows = Vec<(bool, Did)>;

/// Before a ramp is asked for while the board is in this state.
pub fn reached(asked: &Asked, board: &Board) -> Rows {
    let (is_closed, is_running) = (board.n == 0, (0..4).any(|c| !board.peek(c).idle));
    let broken = asked.broken();
    if !broken.is_empty() {
        let on = if is_closed { Did::ramp_refused_on_closed_board } else { Did::ramp_refused_on_open_board };
        return [vec![(true, on)], asked.refused(&broken), asked.refused_by_list(&broken), asked.refused_by_length(&broken)]
            .concat();
    }
    let on = if is_closed { Did::ramp_on_closed_board } else { Did::ramp_on_open_board };
    let mut rows = vec![(true, Did::ramp_written), (true, on), (is_running, Did::ramp_while_a_function_runs)];
    rows.extend(asked.written());
    rows.extend(asked.left());
    for pair in asked.points.windows(2) {
        rows.extend(segment(pair[0], pair[1]));
    }
    rows
}

impl Asked<'_> {
    fn last(&self) -> Option<u32> {
        self.points.last().map(|p| p.index)
    }

    fn falls_short(&self, lent: &[u32]) -> bool {
        (lent.len() as u64) < self.n as u64
    }

    /// Told apart from the call's own test, so that a wrong one does not choose what counts as reached.
    fn broken(&self) -> Vec<Rule> {
        let pairs = || self.points.iter().zip(self.points.iter().skip(1));
        let rules = [
            (self.points.len() < 2 || self.points.len() > 64, Rule::Count),
            (self.n == 0 || self.n > 1 << 20, Rule::Depth),
            (self.points.first().is_some_and(|p| p.index > 0), Rule::First),
            (pairs().any(|(a, b)| b.index <= a.index), Rule::Rising),
            (self.last().is_some_and(|last| last >= self.n), Rule::Last),
            (self.falls_short(self.codes), Rule::Codes),
            (self.falls_short(self.remainders), Rule::Remainders),
        ];
        rules.iter().filter(|r| r.0).map(|r| r.1).collect()
    }

    /// Causes in how many breakpoints there are, and in N, each alone as far as can be: with N 0 or 1 the last index is
    /// not below N either, and no script lends as many words as an N out of range.
    fn refused(&self, broken: &[Rule]) -> Rows {
        let (count, n) = (self.points.len(), self.n);
        let is_count = broken == [Rule::Count];
        // what a ramp would write at a breakpoint, its code and 0, does not stand there
        let differs = |p: &Breakpoint| self.codes.get(p.index as usize).is_some_and(|w| *w as u16 as i16 != p.code);
        let is_above_0 = |p: &Breakpoint| self.remainders.get(p.index as usize).is_some_and(|w| *w != 0);
        vec![
            (is_count && count == 0, Did::ramp_refused_0_breakpoints),
            (is_count && count == 1, Did::ramp_refused_1_breakpoint),
            (is_count && count == 65, Did::ramp_refused_65_breakpoints),
            (is_count && count > 65, Did::ramp_refused_over_65_breakpoints),
            (broken == [Rule::Depth, Rule::Last], Did::ramp_refused_n_0),
            (broken == [Rule::Last] && n == 1, Did::ramp_refused_n_1),
            (broken == [Rule::Depth, Rule::Codes, Rule::Remainders], Did::ramp_refused_n_over_range),
            (broken == [Rule::Codes, Rule::Remainders] && n > 1_024, Did::ramp_refused_n_of_range_over_lent),
            (self.points.iter().any(differs), Did::ramp_refused_leaves_codes),
            (self.points.iter().any(is_above_0), Did::ramp_refused_leaves_remainders),
        ]
    }

    /// Causes in the indices, each alone.
    fn refused_by_list(&self, broken: &[Rule]) -> Rows {
        let is_last = broken == [Rule::Last] && self.n > 1;
        let steps: Vec<i64> = self.points.windows(2).map(|p| p[1].index as i64 - p[0].index as i64).collect();
        let wrong: Vec<usize> = (0..steps.len()).filter(|&k| steps[k] <= 0).collect();
        let is_rising = broken == [Rule::Rising] && wrong.len() == 1;
        let is_at = |place: usize| is_rising && wrong[0] == place;
        vec![
            (broken == [Rule::First], Did::ramp_refused_first_index),
            (is_rising && steps[wrong[0]] == 0, Did::ramp_refused_equal_neighbours),
            (is_rising && steps[wrong[0]] < 0, Did::ramp_refused_falling_neighbours),
            (is_at(0) && steps.len() > 1, Did::ramp_refused_first_pair),
            (is_at(steps.len().wrapping_sub(1)) && steps.len() > 1, Did::ramp_refused_last_pair),
            (is_last && self.last() == Some(self.n), Did::ramp_refused_last_is_n),
            (is_last && self.last() > Some(self.n), Did::ramp_refused_last_above_n),
            (is_last && self.last() == Some(u32::MAX), Did::ramp_refused_last_all_ones),
        ]
    }

    /// Causes in what is lent, each alone. A buffer may be too short though the ramp itself has room in it.
    fn refused_by_length(&self, broken: &[Rule]) -> Rows {
        let last = self.last().map_or(0, |last| last as usize);
        let is_one_short = |lent: &[u32]| lent.len() + 1 == self.n as usize;
        let (is_codes, is_remainders) = (broken == [Rule::Codes], broken == [Rule::Remainders]);
        vec![
            (is_codes && is_one_short(self.codes), Did::ramp_refused_codes_one_short),
            (is_remainders && is_one_short(self.remainders), Did::ramp_refused_remainders_one_short),
            (is_codes && self.codes.len() > last, Did::ramp_refused_codes_with_room),
            (is_remainders && self.remainders.len() > last, Did::ramp_refused_remainders_with_room),
        ]
    }

    /// Of a ramp that is written: its breakpoints, and N.
    fn written(&self) -> Rows {
        let (count, n, last) = (self.points.len(), self.n, self.last());
        let has = |code: i16| self.points.iter().any(|p| p.code == code);
        vec![
            (count == 2, Did::ramp_of_2_breakpoints),
            (count > 2 && count < 64, Did::ramp_of_3_to_63_breakpoints),
            (count == 64, Did::ramp_of_64_breakpoints),
            (n == 2, Did::ramp_of_n_2),
            (n == 1_024, Did::ramp_of_n_1024),
            (last == Some(n - 1), Did::ramp_to_n_less_1),
            (last < Some(n - 1), Did::ramp_to_below_n_less_1),
            (self.points.iter().any(|p| p.code < 0), Did::ramp_code_below_0),
            (has(i16::MIN), Did::ramp_code_least),
            (has(i16::MAX), Did::ramp_code_most),
        ]
    }

    /// Of a ramp that is written: the words that stand in the buffers before.
    fn left(&self) -> Rows {
        let (n, end) = (self.n as usize, self.last().map_or(0, |last| last as usize + 1));
        let stand = |at: usize| [self.codes, self.remainders].iter().all(|lent| lent.get(at).is_some_and(|w| *w != 0));
        let is_marked = |w: &u32| w >> 31 == 1;
        vec![
            (self.codes.len() == n, Did::ramp_codes_just_fit),
            (self.remainders.len() == n, Did::ramp_remainders_just_fit),
            (end < n && stand(end), Did::ramp_later_words_below_n),
            (stand(n), Did::ramp_later_words_from_n),
            (self.codes[..end].iter().any(|w| w >> 16 & 0x7FFF != 0), Did::ramp_over_high_bits),
            (self.codes[..end - 1].iter().any(is_marked), Did::ramp_over_older_last_word),
            (self.codes[end..].iter().any(is_marked), Did::ramp_before_older_last_word),
        ]
    }
}

/// Of two neighbours of a ramp that is written. Some index between them has a remainder above 0 just if the next after
/// the first has one, so just if the width does not divide the rise.
fn segment(from: Breakpoint, to: Breakpoint) -> Rows {
    let (s, t) = (from.code as i32, to.code as i32);
    let (rise, width) = (t - s, (to.index - from.index) as i32);
    let has_remainder = rise % width != 0;
    let (rises, falls) = (has_remainder && rise > 0, has_remainder && rise < 0);
    let is_whole_between = (1..width).any(|k| rise * k % width == 0);
    vec![
        (rises && s >= 0, Did::ramp_rising_above_0_with_remainder),
        (rises && t <= 0, Did::ramp_rising_below_0_with_remainder),
        (rises && s < 0 && t > 0, Did::ramp_rising_through_0_with_remainder),
        (falls && t >= 0, Did::ramp_falling_above_0_with_remainder),
        (falls && s <= 0, Did::ramp_falling_below_0_with_remainder),
        (falls && s > 0 && t < 0, Did::ramp_falling_through_0_with_remainder),
        (has_remainder && rise.abs() < width, Did::ramp_flat_slope),
        (has_remainder && rise.abs() > width, Did::ramp_steep_slope),
        (has_remainder && is_whole_between, Did::ramp_remainder_0_between),
        (rise == 0 && width > 1, Did::ramp_level),
        (width == 1, Did::ramp_of_width_1),
        (width == 1_023 && has_remainder, Did::ramp_of_width_1023),
        (rise == 65_535 && width > 1, Did::ramp_least_to_most),
        (rise == -65_535 && width > 1, Did::ramp_most_to_least),
    ]
}
