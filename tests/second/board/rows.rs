//! Rows of the tally: each with whether it is reached.

use super::Board;
use crate::tally::Did;

/// Those that are reached.
pub(super) fn only(rows: &[(bool, Did)]) -> impl Iterator<Item = Did> + '_ {
    rows.iter().filter(|row| row.0).map(|row| row.1)
}

impl Board {
    pub(super) fn tally_if(&mut self, is: bool, did: Did) {
        if is {
            self.tally.add(did);
        }
    }

    pub(super) fn tally_rows(&mut self, rows: &[(bool, Did)]) {
        for &(is, did) in rows {
            self.tally_if(is, did);
        }
    }
}
