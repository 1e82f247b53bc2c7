//! What the last tick did to a channel: document 02, request 10, whose list this is, in its order.

pub mod rows;
pub mod watch;

use std::fmt;

/// "no tick yet, sent, disarmed, idle, start delay, start gap, resume gap, or between clock edges"
#[derive(Clone, Copy, PartialEq, Eq, PartialOrd, Ord, Debug)]
pub enum LastTick {
    NoTick,
    Sent,
    Disarmed,
    Idle,
    StartDelay,
    StartGap,
    ResumeGap,
    BetweenEdges,
}

pub const ALL: [LastTick; 8] = [
    LastTick::NoTick, LastTick::Sent, LastTick::Disarmed, LastTick::Idle, LastTick::StartDelay, LastTick::StartGap,
    LastTick::ResumeGap, LastTick::BetweenEdges,
];

impl LastTick {
    /// The name in the list, and a sentence for those who ask: what `why` prints.
    pub fn told(self) -> [&'static str; 2] {
        match self {
            LastTick::NoTick => ["no tick yet", "No tick has come since the board was opened or the channel was reset."],
            LastTick::Sent => ["sent", "The last tick sent a frame of this channel: a setpoint or a command frame."],
            LastTick::Disarmed => ["disarmed", "The channel was disarmed when the last tick came: arm it, then start it."],
            LastTick::Idle => {
                ["idle", "The channel was armed, but no function was under way when the last tick came: it waits for a Start."]
            }
            LastTick::StartDelay => {
                ["start delay", "A Start had come and its delay was still running: the first setpoint leaves 10 ticks after the delay."]
            }
            LastTick::StartGap => {
                ["start gap", "The start delay was over, and the last tick was one of the 9 silent ticks before the first setpoint."]
            }
            LastTick::ResumeGap => {
                ["resume gap", "The resume delay was over, and the last tick was one of the 9 silent ticks before the next setpoint."]
            }
            LastTick::BetweenEdges => [
                "between clock edges",
                "A function was under way, and neither its next setpoint nor a repeat was due on the last tick.",
            ],
        }
    }
}

/// As `calls` prints it.
impl fmt::Display for LastTick {
    fn fmt(&self, f: &mut fmt::Formatter) -> fmt::Result {
        f.write_str(match self {
            LastTick::NoTick => "no-tick",
            LastTick::Sent => "sent",
            LastTick::Disarmed => "disarmed",
            LastTick::Idle => "idle",
            LastTick::StartDelay => "start-delay",
            LastTick::StartGap => "start-gap",
            LastTick::ResumeGap => "resume-gap",
            LastTick::BetweenEdges => "between-edges",
        })
    }
}
