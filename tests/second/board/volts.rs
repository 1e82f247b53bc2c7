//! Readings in volts: document 02, request 7, whose quotations these are.

mod kept;
mod places;
mod reached;

pub use self::kept::Idled;
pub use self::reached::WatchedVolts;
use super::Board;
use crate::channel::Sent;
use crate::role::Role;
use crate::tally::Did;
use crate::volts::{voltage, Reading};

impl Sent {
    /// A reply that is stored, the last of `replies`. "A send's third to sixth replies are its ADC words." (In document 000
    /// the first two are Echo and Status.) "The six places are given by the reply's position after the send".
    pub(super) fn take_reading(&mut self, reply: u64, wrong: bool) {
        if let 3..=6 = self.replies {
            let reading = if wrong { Reading::Damaged } else { Reading::Volts(voltage((reply >> 18) as u16)) };
            self.readings[self.replies as usize - 3] = reading;
        }
    }
}

impl Board {
    /// Refusals 2, 13. "The call names a channel and describes its last setpoint send since idle; with none, all four are
    /// lost."
    pub fn voltages(&mut self, role: Role, c: u32) -> Result<[Reading; 4], u8> {
        let c = Board::channel(c).inspect_err(|_| self.tally_voltages_refused(c))?;
        self.may_read(role, c)?;
        let sent = self.ch[c].function.as_ref().and_then(|f| f.sent);
        let told = sent.map_or([Reading::Lost; 4], |sent| sent.readings);
        self.tally_voltages(c, told);
        self.watch_download_kept(c, Did::download_kept_over_voltages);
        Ok(told)
    }
}
