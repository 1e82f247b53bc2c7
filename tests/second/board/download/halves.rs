//! Rows that both calls of a portion have to show: the one that answers words, and the one beside it.

use crate::tally::Did;

/// Each with whether a call of words and a call of their number has shown it.
#[derive(Clone, Default)]
pub struct Halves(Vec<(Did, [bool; 2])>);

impl Halves {
    /// A row that is to be shown.
    pub fn add(&mut self, did: Did) {
        if !self.0.iter().any(|row| row.0 == did) {
            self.0.push((did, [false; 2]));
        }
    }

    pub fn clear(&mut self) {
        self.0.clear();
    }

    /// One of the calls shows this row: whether both have now.
    pub fn show(&mut self, did: Did, is_length: bool) -> bool {
        let at = self.0.iter().position(|row| row.0 == did);
        let mut shown = at.map_or([false; 2], |at| self.0.swap_remove(at).1);
        shown[is_length as usize] = true;
        let is_by_both = shown == [true; 2];
        if !is_by_both {
            self.0.push((did, shown));
        }
        is_by_both
    }

    /// One of the calls shows all that are to be shown: those that both have shown now.
    pub fn show_all(&mut self, is_length: bool) -> Vec<Did> {
        let rows: Vec<Did> = self.0.iter().map(|row| row.0).collect();
        rows.into_iter().filter(|did| self.show(*did, is_length)).collect()
    }
}
