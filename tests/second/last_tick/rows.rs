//! What the corpus has to reach of last ticks: each row is counted at an answer that would be another if it were otherwise.

use super::{LastTick, ALL};
use crate::board::sending::Kind;
use crate::role::Role;
use std::collections::BTreeMap;

/// Channels are 0–3.
#[derive(Clone, Copy, PartialEq, Eq, PartialOrd, Ord, Debug)]
pub enum Row {
    /// Told to this role.
    ToRole(LastTick, Role),
    /// Told of this channel.
    OfChannel(LastTick, usize),
    /// Two channels are told apart after one tick.
    Beside,
    /// A tick after a Start, with no command frame: where it stands, and the delay.
    Start(Place, Delay),
    /// The same, by how the Start came.
    StartBy(Place, How),
    /// And after the register of the delay was written anew.
    StartRewritten(Place),
    /// A tick after a Resume, and what is told.
    Resume(Place, Delay, LastTick),
    /// The same, by its number; 5 is Commands D1.
    ResumeOf(Place, u32),
    ResumeRewritten(Place),
    /// A gap's tick on which a repeat would be due.
    RepeatDropped,
    /// A tick that sends a setpoint, and one that does not though the function runs, by what is sent or due next.
    Sends(Kind),
    Waits(Kind),
    /// By the period.
    Edge(u64, Edge),
    /// A command frame by these bits of FC, and what would be told without it.
    Command(u16, LastTick),
    /// The tick after it.
    AfterCommand(LastTick),
    /// A frame that the tick did not show: a command frame (true) or a setpoint's.
    Hidden(bool),
    /// The last of so many ticks in one record.
    OfRecord(Length, LastTick),
    OfClosedBoard(LastTick),
    /// Kept, though by this another tick would tell the second.
    KeptOver(Came, LastTick, LastTick),
    /// Kept, though a tick that was refused with this number would tell another.
    LeftByRefused(u8, LastTick),
    /// And so a record of no ticks.
    LeftByNoTicks(LastTick),
    /// No tick yet, after the reset of a channel of which this was told.
    ResetFrom(LastTick),
    /// The first tick after it.
    TickAfterReset,
    /// No tick yet by another opening, refused (true) or not.
    Opened(bool),
    /// A reset that is none.
    ResetLeft(NoReset),
    AskedAgain,
    WhateverLentCode,
    Refused(NoChannel),
}

/// A tick's number since a Start or Resume of delay D: 1, D, D + 1, D + 9, D + 10, D + 11.
#[derive(Clone, Copy, PartialEq, Eq, PartialOrd, Ord, Debug)]
pub enum Place {
    DelayFirst,
    DelayLast,
    GapFirst,
    GapLast,
    Due,
    After,
}

pub const PLACES: [Place; 6] =
    [Place::DelayFirst, Place::DelayLast, Place::GapFirst, Place::GapLast, Place::Due, Place::After];

impl Place {
    pub fn is_of_delay(self) -> bool {
        matches!(self, Place::DelayFirst | Place::DelayLast)
    }

    /// Those of a tick; with delay 1 its first is its last.
    pub fn of(number: u64, delay: u64) -> Vec<Place> {
        let numbers = [1.min(delay), delay, delay + 1, delay + 9, delay + 10, delay + 11];
        (0..6).filter(|i| number > 0 && numbers[*i] == number).map(|i| PLACES[i]).collect()
    }
}

#[derive(Clone, Copy, PartialEq, Eq, PartialOrd, Ord, Debug)]
pub enum Delay {
    Zero,
    One,
    Few,
    Some,
    Many,
    /// Its high byte is not 0.
    Long,
}

const DELAYS: [Delay; 6] = [Delay::Zero, Delay::One, Delay::Few, Delay::Some, Delay::Many, Delay::Long];

impl Delay {
    pub fn of(ticks: u64) -> Delay {
        match ticks {
            0 => Delay::Zero,
            1 => Delay::One,
            2..=9 => Delay::Few,
            10..=999 => Delay::Some,
            1_000..=65_535 => Delay::Many,
            _ => Delay::Long,
        }
    }
}

/// How a Start came: by event, or by command (true), and to which channel.
#[derive(Clone, Copy, PartialEq, Eq, PartialOrd, Ord, Debug)]
pub struct How {
    pub by_command: bool,
    pub to: To,
}

#[derive(Clone, Copy, PartialEq, Eq, PartialOrd, Ord, Debug)]
pub enum To {
    Idle,
    Running,
    /// One that was idled by the Group End of the same event or command.
    Ended,
}

/// The first tick after a send, the last before the next, and that one.
#[derive(Clone, Copy, PartialEq, Eq, PartialOrd, Ord, Debug)]
pub enum Edge {
    First,
    Last,
    Due,
}

#[derive(Clone, Copy, PartialEq, Eq, PartialOrd, Ord, Debug)]
pub enum Length {
    One,
    /// 1,000 or more.
    Long,
    /// 65,535.
    Longest,
}

/// What a record asks for. An event and a command are told apart by what they bring.
#[derive(Clone, Copy, PartialEq, Eq, PartialOrd, Ord, Debug)]
pub enum Came {
    Arm,
    Disarm,
    Event,
    Command,
    /// A write to FC.
    AskCommand,
    User,
    /// A write to 06 of a channel, with D0 or without.
    Reset(usize, bool),
    Open,
    Ticks(u32),
    Other,
}

#[derive(Clone, Copy, PartialEq, Eq, PartialOrd, Ord, Debug)]
pub enum NoReset {
    WithoutD0,
    OfOtherChannel,
    Refused(u8),
}

#[derive(Clone, Copy, PartialEq, Eq, PartialOrd, Ord, Debug)]
pub enum NoChannel {
    Zero,
    Five,
    Most,
    /// With the low bits of a channel.
    LowBits,
    OnClosedBoard,
}

pub type Counts = BTreeMap<Row, u64>;

/// Those of a channel whose function runs.
const RUNNING: [LastTick; 5] =
    [LastTick::Sent, LastTick::StartDelay, LastTick::StartGap, LastTick::ResumeGap, LastTick::BetweenEdges];

/// Those that can be reached by both kinds of files.
fn of_both() -> Vec<Row> {
    let mut rows = vec![Row::RepeatDropped, Row::Beside, Row::TickAfterReset, Row::ResetLeft(NoReset::WithoutD0)];
    rows.extend(ALL.iter().flat_map(|told| (0..4).map(move |c| Row::OfChannel(*told, c))));
    rows.extend(ALL[1..].iter().flat_map(|told| [Row::OfRecord(Length::One, *told), Row::OfRecord(Length::Long, *told)]));
    rows.extend(ALL[1..].iter().map(|told| Row::ResetFrom(*told)));
    rows.push(Row::ResetLeft(NoReset::OfOtherChannel));
    rows.extend(of_delays());
    rows.extend(of_sends());
    rows.extend(kept());
    rows
}

fn of_delays() -> Vec<Row> {
    let mut rows = Vec::new();
    for (place, delay) in PLACES.iter().flat_map(|place| DELAYS.map(|delay| (*place, delay))) {
        if place.is_of_delay() && delay == Delay::Zero {
            continue;
        }
        rows.push(Row::Start(place, delay));
        let told: &[LastTick] = match place {
            Place::DelayFirst | Place::DelayLast => &[LastTick::Sent, LastTick::BetweenEdges],
            Place::GapFirst | Place::GapLast => &[LastTick::ResumeGap],
            Place::Due => &[LastTick::Sent],
            Place::After => &[LastTick::BetweenEdges],
        };
        rows.extend(told.iter().map(|told| Row::Resume(place, delay, *told)));
    }
    for place in PLACES {
        for to in [To::Idle, To::Running, To::Ended] {
            rows.push(Row::StartBy(place, How { by_command: false, to }));
            rows.extend((!place.is_of_delay()).then_some(Row::StartBy(place, How { by_command: true, to })));
        }
        rows.extend((1..=4).map(|k| Row::ResumeOf(place, k)));
        rows.extend((!place.is_of_delay()).then_some(Row::ResumeOf(place, 5)));
    }
    for place in [Place::DelayLast, Place::GapFirst] {
        rows.extend([Row::StartRewritten(place), Row::ResumeRewritten(place)]);
    }
    rows
}

fn of_sends() -> Vec<Row> {
    let due = [Kind::NextWord, Kind::RepeatOfPause, Kind::RepeatInResumeDelay, Kind::RepeatOfLast];
    let mut rows = vec![Row::Sends(Kind::FirstWord), Row::Sends(Kind::WordAfterResume)];
    rows.extend(due.iter().flat_map(|send| [Row::Sends(*send), Row::Waits(*send)]));
    for period in [10, 100, 1_000, 10_000] {
        rows.extend([Edge::First, Edge::Last, Edge::Due].map(|edge| Row::Edge(period, edge)));
    }
    // D0 is refused while the channel is disarmed, and disarming drops what waits
    rows.extend([LastTick::Idle, LastTick::StartDelay, LastTick::StartGap].map(|told| Row::Command(1, told)));
    let quiet = [LastTick::Disarmed, LastTick::Idle, LastTick::StartDelay, LastTick::StartGap];
    rows.extend(quiet.map(|told| Row::Command(2, told)));
    rows.extend(quiet.map(Row::AfterCommand));
    rows
}

/// What comes after a tick and leaves what is told of it.
fn kept() -> Vec<Row> {
    use self::LastTick::*;
    let idling = [(Came::Disarm, Disarmed), (Came::Event, Idle), (Came::Command, Idle), (Came::User, Idle)];
    let mut rows: Vec<Row> = Vec::new();
    for told in RUNNING {
        rows.extend(idling.map(|(came, next)| Row::KeptOver(came, told, next)));
    }
    for told in [Idle, Sent, StartGap, ResumeGap, BetweenEdges] {
        rows.push(Row::KeptOver(Came::Event, told, StartDelay));
    }
    for told in [Idle, Sent, StartDelay, ResumeGap, BetweenEdges] {
        rows.extend([Came::Event, Came::Command].map(|came| Row::KeptOver(came, told, StartGap)));
    }
    for told in [Sent, BetweenEdges] {
        rows.extend([Came::Event, Came::Command].map(|came| Row::KeptOver(came, told, ResumeGap)));
    }
    rows.extend([Row::KeptOver(Came::Arm, Disarmed, Idle), Row::KeptOver(Came::Disarm, Idle, Disarmed)]);
    rows.push(Row::KeptOver(Came::AskCommand, Idle, Sent));
    for told in [Disarmed, Idle] {
        rows.extend([Came::Event, Came::Command].map(|came| Row::KeptOver(came, told, Sent)));
    }
    rows
}

/// All rows that run files have to reach. Each ends in four answers and no more, so of delays they have two lengths.
pub fn wanted_of_run_files() -> Vec<Row> {
    let mut rows = of_both();
    rows.retain(|row| match row {
        Row::Start(_, delay) | Row::Resume(_, delay, _) => [Delay::Zero, Delay::Some].contains(delay),
        Row::StartBy(..) | Row::ResumeOf(..) | Row::StartRewritten(_) | Row::ResumeRewritten(_) => false,
        _ => true,
    });
    rows
}

/// All rows that scripts have to reach.
pub fn wanted_of_scripts() -> Vec<Row> {
    let mut rows = of_both();
    for told in ALL {
        rows.extend([Role::Examiner, Role::Candidate, Role::Watcher].map(|role| Row::ToRole(told, role)));
        rows.extend([1, 13].map(|number| Row::LeftByRefused(number, told)));
        rows.push(Row::LeftByNoTicks(told));
    }
    rows.extend(ALL[1..].iter().map(|told| Row::OfRecord(Length::Longest, *told)));
    let closed = [LastTick::NoTick, LastTick::Disarmed, LastTick::Idle, LastTick::StartDelay, LastTick::StartGap];
    rows.extend(closed.map(Row::OfClosedBoard));
    rows.extend([false, true].map(Row::Hidden));
    rows.extend([false, true].map(Row::Opened));
    rows.extend([1, 13].map(|number| Row::ResetLeft(NoReset::Refused(number))));
    rows.extend([Row::AskedAgain, Row::WhateverLentCode]);
    let none = [NoChannel::Zero, NoChannel::Five, NoChannel::Most, NoChannel::LowBits, NoChannel::OnClosedBoard];
    rows.extend(none.map(Row::Refused));
    rows
}
