//! The calls that name a role, with what each of them needs by document 02, request 9.

use crate::script::record::Record;

#[derive(Clone, Copy, PartialEq, Eq, PartialOrd, Ord, Debug)]
pub enum Permission {
    Read,
    Write,
}

impl Permission {
    /// Among a role's permissions, for a channel (0–3).
    pub fn bit(self, c: usize) -> u8 {
        match self {
            Permission::Read => 1 << c,
            Permission::Write => 0x10 << c,
        }
    }
}

#[derive(Clone, Copy, PartialEq, Eq, PartialOrd, Ord, Debug)]
pub enum Call {
    WriteSetpoint,
    WriteRegister,
    Arm,
    Disarm,
    Reply,
    ReadRegister,
    /// 02.
    ReadInterruptStatus,
    /// 04.
    ReadPollingStatus,
    /// 0C.
    ReadMissingCount,
    Voltages,
    Retired,
    RetiredLength,
    OpenDownload,
    Portion,
    PortionLength,
    LastTick,
    WriteMain,
    ReadMain,
    ChangeUser,
    Level,
    Tick,
    Event,
}

/// Those that name a channel.
pub const OF_CHANNEL: [Call; 16] = [
    Call::WriteSetpoint, Call::WriteRegister, Call::Arm, Call::Disarm, Call::Reply, Call::ReadRegister,
    Call::ReadInterruptStatus, Call::ReadPollingStatus, Call::ReadMissingCount, Call::Voltages, Call::Retired,
    Call::RetiredLength, Call::OpenDownload, Call::Portion, Call::PortionLength, Call::LastTick,
];

/// Those that are the examiner's.
pub const OF_EXAMINER: [Call; 4] = [Call::WriteMain, Call::ReadMain, Call::ChangeUser, Call::Level];

impl Call {
    /// The call of a record; none if it makes no call, or one that names no role.
    pub fn of(r: Record) -> Option<Call> {
        Some(match r.kind {
            1 if r.x < 0x800 => Call::WriteMain,
            1 => Call::WriteRegister,
            2 if r.x < 0x800 => Call::ReadMain,
            2 => match r.x % 0x800 {
                0x02 => Call::ReadInterruptStatus,
                0x04 => Call::ReadPollingStatus,
                0x0C => Call::ReadMissingCount,
                _ => Call::ReadRegister,
            },
            3 => Call::WriteSetpoint,
            4 => Call::Arm,
            5 => Call::Disarm,
            6 => Call::Reply,
            7 => Call::Retired,
            8 => Call::RetiredLength,
            9 if r.x & 0xFFFF > 0 => Call::Tick,
            10 => Call::Event,
            11 => Call::ChangeUser,
            12 => Call::Level,
            15 => Call::Voltages,
            16 => Call::OpenDownload,
            17 => Call::Portion,
            18 => Call::PortionLength,
            19 => Call::LastTick,
            _ => return None,
        })
    }

    /// What it needs of the channel that it names.
    pub fn needs(self) -> &'static [Permission] {
        use self::Call::*;
        match self {
            WriteSetpoint | WriteRegister | Arm | Disarm | Reply => &[Permission::Write],
            ReadInterruptStatus | ReadPollingStatus | ReadMissingCount => &[Permission::Read, Permission::Write],
            ReadRegister | Voltages | Retired | RetiredLength | OpenDownload | Portion | PortionLength | LastTick => {
                &[Permission::Read]
            }
            WriteMain | ReadMain | ChangeUser | Level | Tick | Event => &[],
        }
    }

    /// The same among a role's permissions.
    pub fn needed(self, c: usize) -> u8 {
        self.needs().iter().fold(0, |bits, permission| bits | permission.bit(c))
    }

    /// It may change something.
    pub fn is_change(self) -> bool {
        use self::Call::*;
        !matches!(self, ReadRegister | Voltages | Retired | RetiredLength | Portion | PortionLength | LastTick | Level)
    }
}

/// The channel (0–3) that a record names.
pub fn channel(r: Record) -> Option<usize> {
    let c = match r.kind {
        1 | 2 => r.x / 0x800,
        3..=8 | 15..=19 => r.c as u32,
        _ => return None,
    };
    (1..=4).contains(&c).then(|| c as usize - 1)
}

/// Why a call is refused, other than by 13.
#[derive(Clone, Copy, PartialEq, Eq, PartialOrd, Ord, Debug)]
pub enum Reason {
    Misfit,
    NoChannel,
    /// An address of a channel or of Main that is not in the map.
    Unmapped,
    /// An address from 2800h up.
    PastChannels,
    WrongWay,
    NoClock,
    LiveBuffer,
    BadFraming,
    FunctionOn,
    Overtaken,
    NoUser,
    NoBuffer,
    NoIndex,
    PastCount,
}

impl Reason {
    /// That of a record which was refused so by a board of depth N; none if several parts of 2 apply.
    pub fn of(r: Record, number: u8, n: u32) -> Option<Reason> {
        Some(match number {
            1 => Reason::Misfit,
            2 => return Reason::of_range(r, n),
            3 if r.x < 0x2800 => Reason::Unmapped,
            3 => Reason::PastChannels,
            4 => Reason::WrongWay,
            5 => Reason::NoClock,
            6 => Reason::LiveBuffer,
            7 => Reason::BadFraming,
            10 => Reason::FunctionOn,
            12 => Reason::Overtaken,
            _ => return None,
        })
    }

    /// The part of 2 that a record was refused by.
    fn of_range(r: Record, n: u32) -> Option<Reason> {
        let (user, buffer, index) = (!(1..=8).contains(&r.x), !(1..=2).contains(&r.b), r.y >= n);
        match (r.kind, user, buffer, index) {
            (11, ..) => Some(Reason::NoUser),
            _ if channel(r).is_none() => Some(Reason::NoChannel),
            (17 | 18, ..) => Some(Reason::PastCount),
            (_, true, false, false) => Some(Reason::NoUser),
            (_, false, true, false) => Some(Reason::NoBuffer),
            (_, false, false, true) => Some(Reason::NoIndex),
            _ => None,
        }
    }

    /// It is checked before 13: "once 1, 3 and the channel have passed".
    pub fn is_first(self) -> bool {
        matches!(self, Reason::Misfit | Reason::NoChannel | Reason::Unmapped | Reason::PastChannels)
    }
}
