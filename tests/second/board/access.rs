//! Which role may make which call: document 02, request 9, whose quotations these are. 13 is "right missing; checked once 1,
//! 3 and the channel have passed, before all else": each call asks once, in that place.

use super::Board;
use crate::map::Place;
use crate::role::{Access, Role};

fn allowed(is: bool) -> Result<(), u8> {
    if is { Ok(()) } else { Err(13) }
}

/// "Main registers, user changes and the interrupt level are the examiner's."
pub(super) fn may_examine(role: Role) -> Result<(), u8> {
    allowed(role == Role::Examiner)
}

/// "Ticks and events are the examiner's and the candidate's", whatever permissions the candidate has.
pub(super) fn may_run(role: Role) -> Result<(), u8> {
    allowed(role != Role::Watcher)
}

impl Board {
    /// What the opening gave, and no call but another opening changes.
    pub fn access(&self) -> Access {
        self.access
    }

    /// "Setpoint writes, register writes, arming, disarming and replies need the write right."
    pub(super) fn may_write(&self, role: Role, c: usize) -> Result<(), u8> {
        allowed(self.access.of(role).may_write(c))
    }

    /// "Register reads, voltages, retired parts and downloads need the read right"
    pub(super) fn may_read(&self, role: Role, c: usize) -> Result<(), u8> {
        allowed(self.access.of(role).may_read(c))
    }

    pub(super) fn may_write_register(&self, role: Role, place: Place) -> Result<(), u8> {
        match place {
            Place::Main(_) => may_examine(role),
            Place::Channel(c, _) => self.may_write(role, c),
        }
    }

    /// "reading 02, 04 or 0C needs both, as it clears"
    pub(super) fn may_read_register(&self, role: Role, place: Place) -> Result<(), u8> {
        match place {
            Place::Main(_) => may_examine(role),
            Place::Channel(c, 0x02 | 0x04 | 0x0C) => self.may_read(role, c).and(self.may_write(role, c)),
            Place::Channel(c, _) => self.may_read(role, c),
        }
    }

    /// "a tick's answer shows a seat only channels it may read"
    pub(super) fn shows(&self, role: Role, c: usize) -> bool {
        self.access.of(role).may_read(c)
    }
}
