//! Who makes a call, and what they may do: document 02, request 9, whose quotations these are. Its seats are roles here, and
//! its rights permissions.

/// "Three seats: examiner, candidate, watcher."
#[derive(Clone, Copy, PartialEq, Eq, PartialOrd, Ord, Debug)]
pub enum Role {
    Examiner,
    Candidate,
    Watcher,
}

/// "a read right and a write right for each channel", as scripts have them (CALLS.md): D3–D0 read, D7–D4 write, each of
/// channels 4–1.
#[derive(Clone, Copy, PartialEq, Eq, Debug)]
pub struct Permissions(pub u8);

impl Permissions {
    pub const NONE: Permissions = Permissions(0);
    pub const ALL: Permissions = Permissions(0xFF);

    /// Of a channel (0–3).
    pub fn may_read(self, c: usize) -> bool {
        self.0 >> c & 1 == 1
    }
    pub fn may_write(self, c: usize) -> bool {
        self.0 >> (4 + c) & 1 == 1
    }
}

/// What an opening gives: "The opening gives candidate and watcher a read right and a write right for each channel."
#[derive(Clone, Copy, PartialEq, Eq, Debug)]
pub struct Access {
    pub candidate: Permissions,
    pub watcher: Permissions,
}

impl Access {
    pub const NONE: Access = Access { candidate: Permissions::NONE, watcher: Permissions::NONE };

    /// "The examiner has all."
    pub fn of(self, role: Role) -> Permissions {
        match role {
            Role::Examiner => Permissions::ALL,
            Role::Candidate => self.candidate,
            Role::Watcher => self.watcher,
        }
    }
}
