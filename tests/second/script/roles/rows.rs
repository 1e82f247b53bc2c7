//! What the corpus has to reach of roles: each row is counted at an answer that would be another if it were otherwise.

use super::call::{Call, Permission, Reason, OF_CHANNEL, OF_EXAMINER};
use crate::role::Role;
use std::collections::BTreeMap;

/// Channels are 0–3. "The other role" of the candidate is the watcher, and of the watcher the candidate.
#[derive(Clone, Copy, PartialEq, Eq, PartialOrd, Ord, Debug)]
pub enum Row {
    /// Answered, with no permission but what the call needs, of which the other role has nothing.
    Alone(Call, Role, usize),
    /// Refused 13, with all permissions but this one, which the other role has.
    AllBut(Call, Role, usize, Permission),
    /// Answered to the examiner, while the others have no permission.
    ByExaminer(Call, Option<usize>),
    /// Refused 13, with all permissions: a register of Main written (true) or read, by its offset.
    Main(Role, bool, u32),
    /// Refused 13, with all permissions.
    Never(Call, Role),
    /// Answered, with no permission.
    Always(Call, Role),
    /// Refused for this reason, where 13 applies as well.
    ReasonFirst(Call, Role, Reason),
    /// Refused 13, where this reason applies as well.
    RoleFirst(Call, Role, Reason),
    /// Refused for this reason, with no permission but what the call needs.
    ReasonAlone(Call, Role, Reason),
    /// The same of 02, 04 or 0C, by its offset, written with the write permission alone.
    ReadOnlyWritten(u32),
    /// Refused 13, and so nothing done, as a later answer shows.
    Left(Call, Role),
    /// Answered, and so done, as a later answer shows; ticks and events with no permission at all.
    Done(Call, Role),
    /// The same of a write to 06, 08, 30–3E (as 30) or FC, done (true) or not.
    WriteOnly(bool, Role, u32),
    /// A frame of this channel that a candidate is shown with its read permission alone.
    Shown(usize),
    /// And one that a candidate is not shown, with all permissions but that.
    Hidden(usize),
    HiddenBesideShown,
    HiddenAll,
    HiddenManyInOneRecord,
    /// A setpoint's frame or a command frame (true) that was not shown counts as sent, as the answer to this call shows.
    HiddenCounts(bool, Call),
    /// After this the role still has the permission that a call needs (true), or still has it not.
    KeptOver(Change, Role, bool),
    /// So it is by the header's opening, refused (true) or not, for this permission.
    OfHeader(bool, Role, Permission),
    /// The role has by another opening, refused (first true) or not, what it had not before (second true), or the reverse.
    OfOpening(bool, Role, bool),
    /// Role 3 of a record is the examiner.
    CodeThree,
    /// D7–D6 of byte 2 mean nothing.
    HighBits(Role),
    /// A record of this kind names no role.
    NoRole(u8),
    /// No ticks of a watcher's: no call, and no refusal.
    NoTicks,
    /// A lent code of a pool, or of two buffers (true), that would be refused without its D3.
    HighLentCode(bool),
    /// What the end prints is the examiner's, and no other role may ask for it.
    End,
}

/// What leaves permissions as they are.
#[derive(Clone, Copy, PartialEq, Eq, PartialOrd, Ord, Debug)]
pub enum Change {
    Reset,
    GroupEndCommand,
    GroupEndEvent,
    UserChange,
    Arm,
    Disarm,
    Ticks,
    Refused,
}

pub type Counts = BTreeMap<Row, u64>;

const OTHERS: [Role; 2] = [Role::Candidate, Role::Watcher];
const CHANGES: [Change; 8] = [
    Change::Reset, Change::GroupEndCommand, Change::GroupEndEvent, Change::UserChange, Change::Arm, Change::Disarm,
    Change::Ticks, Change::Refused,
];

/// Each call with a reason that is checked before 13.
const BEFORE: [(Call, Reason); 21] = [
    (Call::WriteSetpoint, Reason::Misfit), (Call::WriteSetpoint, Reason::NoChannel), (Call::WriteRegister, Reason::Misfit),
    (Call::WriteRegister, Reason::Unmapped), (Call::WriteRegister, Reason::PastChannels), (Call::Arm, Reason::NoChannel),
    (Call::Disarm, Reason::NoChannel), (Call::Reply, Reason::Misfit), (Call::Reply, Reason::NoChannel),
    (Call::ReadRegister, Reason::Unmapped), (Call::ReadRegister, Reason::PastChannels), (Call::Voltages, Reason::NoChannel),
    (Call::RetiredLength, Reason::Misfit), (Call::RetiredLength, Reason::NoChannel), (Call::OpenDownload, Reason::NoChannel),
    (Call::PortionLength, Reason::Misfit), (Call::PortionLength, Reason::NoChannel), (Call::WriteMain, Reason::Misfit),
    (Call::WriteMain, Reason::Unmapped), (Call::ReadMain, Reason::Unmapped), (Call::LastTick, Reason::NoChannel),
];

/// Each call that names a channel with a reason that is checked after 13. A refused part is told from an empty one by the
/// call beside it alone.
const AFTER: [(Call, Reason); 11] = [
    (Call::WriteSetpoint, Reason::NoUser), (Call::WriteSetpoint, Reason::NoBuffer), (Call::WriteSetpoint, Reason::NoIndex),
    (Call::WriteSetpoint, Reason::LiveBuffer), (Call::WriteRegister, Reason::WrongWay), (Call::WriteRegister, Reason::NoClock),
    (Call::WriteRegister, Reason::FunctionOn), (Call::Reply, Reason::BadFraming), (Call::ReadRegister, Reason::WrongWay),
    (Call::PortionLength, Reason::Overtaken), (Call::PortionLength, Reason::PastCount),
];

/// By what a frame that was not shown, a setpoint's or a command's, is told to count as sent.
const TELLS: [(bool, Call); 15] = [
    (false, Call::Tick), (false, Call::Reply), (false, Call::ReadRegister), (false, Call::ReadInterruptStatus),
    (false, Call::ReadPollingStatus), (false, Call::ReadMissingCount), (false, Call::Voltages), (false, Call::Retired),
    (false, Call::ReadMain), (false, Call::Level), (true, Call::Tick), (true, Call::Reply), (true, Call::ReadRegister),
    (false, Call::LastTick), (true, Call::LastTick),
];

/// All rows.
pub fn wanted() -> Vec<Row> {
    let mut rows = vec![
        Row::HiddenBesideShown, Row::HiddenAll, Row::HiddenManyInOneRecord, Row::CodeThree, Row::NoTicks, Row::End,
    ];
    for call in [Call::Tick, Call::Event] {
        rows.extend([Row::Never(call, Role::Watcher), Row::Left(call, Role::Watcher)]);
        rows.extend([Row::Always(call, Role::Candidate), Row::Done(call, Role::Candidate), Row::ByExaminer(call, None)]);
        rows.push(Row::ReasonFirst(call, Role::Watcher, Reason::Misfit));
    }
    rows.extend([false, true].map(Row::HighLentCode));
    rows.extend([0x02, 0x04, 0x0C].map(Row::ReadOnlyWritten));
    rows.extend([0, 13, 14].map(Row::NoRole));
    rows.extend(OF_EXAMINER.map(|call| Row::ByExaminer(call, None)));
    rows.extend(TELLS.map(|(is_command, call)| Row::HiddenCounts(is_command, call)));
    rows.extend((0..4).flat_map(|c| [Row::Shown(c), Row::Hidden(c)]));
    rows.extend((0..4).flat_map(|c| OF_CHANNEL.map(|call| Row::ByExaminer(call, Some(c)))));
    rows.extend(OTHERS.iter().flat_map(|role| of_role(*role)));
    rows
}

/// Those of the candidate and of the watcher alike.
fn of_role(role: Role) -> Vec<Row> {
    let mut rows = vec![Row::Never(Call::ChangeUser, role), Row::Never(Call::Level, role), Row::HighBits(role)];
    for call in OF_CHANNEL {
        rows.extend((0..4).map(|c| Row::Alone(call, role, c)));
        rows.extend((0..4).flat_map(|c| call.needs().iter().map(move |permission| Row::AllBut(call, role, c, *permission))));
        if call.is_change() {
            rows.extend([Row::Left(call, role), Row::Done(call, role)]);
        }
    }
    rows.extend(OF_EXAMINER.iter().filter(|call| call.is_change()).map(|call| Row::Left(*call, role)));
    rows.extend([0x22, 0x24, 0x26, 0x28, 0x2A].map(|offset| Row::Main(role, false, offset)));
    rows.extend([0x22, 0x24, 0x26].map(|offset| Row::Main(role, true, offset)));
    rows.extend(BEFORE.map(|(call, reason)| Row::ReasonFirst(call, role, reason)));
    for (call, reason) in AFTER {
        rows.extend([Row::RoleFirst(call, role, reason), Row::ReasonAlone(call, role, reason)]);
    }
    rows.push(Row::RoleFirst(Call::WriteMain, role, Reason::WrongWay));
    rows.push(Row::RoleFirst(Call::ChangeUser, role, Reason::NoUser));
    for is in [false, true] {
        rows.extend(CHANGES.map(|change| Row::KeptOver(change, role, is)));
        rows.extend([0x06, 0x08, 0x30, 0xFC].map(|offset| Row::WriteOnly(is, role, offset)));
        rows.extend([false, true].map(|is_refused| Row::OfOpening(is_refused, role, is)));
        rows.extend([Permission::Read, Permission::Write].map(|permission| Row::OfHeader(is, role, permission)));
    }
    rows
}
