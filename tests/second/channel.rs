//! One channel: its registers, and the function that it plays. Quotations are document 01's.
//!
//! Time is absolute: a function knows the tick on which its next frame leaves, counted since the
//! board was opened. Registers are kept as the words that the map shows, at half their offset.

use crate::last_tick::rows::How;
use crate::last_tick::LastTick;
use crate::volts::Reading;

// "Channel status: D15 RUN, D14 EOF, D13 GE, D12 EE, D11–D8 pauses 4–1, D7 VME pause, D2 CRC."
pub const RUN: u16 = 1 << 15;
pub const EOF: u16 = 1 << 14;
pub const GE: u16 = 1 << 13;
pub const EE: u16 = 1 << 12;
pub const CRC: u16 = 1 << 2;
/// Document 02, request 2: "Each shortfall latches D4 of both channel statuses."
pub const MR: u16 = 1 << 4;

/// What makes a word repeat. Pause 5 is the VME pause.
#[derive(Clone, Copy, PartialEq)]
pub enum Hold {
    Last,
    Pause(u32),
}

/// "Word bits in order of precedence: D31 last, D16–D19 pause 1–4, D20 VME pause. The word
/// at index N − 1 counts as last". (A board of depth 0 has no word; see CALLS.md.)
pub fn hold(word: u32, index: u32, depth: u32) -> Option<Hold> {
    if word >> 31 == 1 || index + 1 >= depth {
        return Some(Hold::Last);
    }
    (1..=5).find(|k| word >> (15 + k) & 1 == 1).map(Hold::Pause)
}

pub fn status_of(h: Hold) -> u16 {
    match h {
        Hold::Last => EOF,
        Hold::Pause(5) => 1 << 7,
        Hold::Pause(k) => 1 << (7 + k),
    }
}

/// A setpoint send.
#[derive(Clone, Copy)]
pub struct Sent {
    /// D31–D26 of its readbacks.
    pub flags: u32,
    /// It used a tag (document 02, request 6).
    pub is_tagged: bool,
    /// The Frame ID that it carried.
    pub id: u8,
    /// The replies after it, kept or lost, at most six.
    pub replies: u32,
    /// What is read of the third to sixth (document 02, request 7).
    pub readings: [Reading; 4],
}

/// A function that is not idle.
#[derive(Clone)]
pub struct Function {
    /// The tick on which the next word or repeat leaves.
    pub due: u64,
    /// "the index due"
    pub index: u32,
    /// The word that repeats, and why.
    pub held: Option<(u32, Hold)>,
    /// A resume under way: the tick on which the next word leaves.
    pub resume: Option<u64>,
    /// The last word went since the latest Start.
    pub ended: bool,
    /// The last send since idle.
    pub sent: Option<Sent>,
    /// No send since the latest Start.
    pub fresh: bool,
    /// For the tally alone, as is `last_send`.
    pub loaded: Loaded,
    /// The last setpoint send since the latest Start: its tick, and the period after it.
    pub last_send: Option<(u64, u64)>,
}

/// The latest Start or Resume that worked.
#[derive(Clone, Copy)]
pub struct Loaded {
    pub at: u64,
    pub delay: u64,
    /// None for a Resume.
    pub start: Option<How>,
    /// Its number; 5 is Commands D1, and 0 a Start.
    pub resume: u32,
}

impl Function {
    /// One that begins, with its first word due on this tick.
    pub fn new(due: u64, loaded: Loaded) -> Function {
        Function { due, index: 0, held: None, resume: None, ended: false, sent: None, fresh: true, loaded, last_send: None }
    }
}

/// A command frame that waits (document 02, request 1).
#[derive(Clone, Copy)]
pub struct Waiting {
    /// The tick on which it leaves; none before the Group End that D1 waits for.
    pub due: Option<u64>,
    /// For the tally alone.
    pub asked: CommandAsked,
}

/// FC's D1 and D0 when a command frame was asked for, and the channel as it then was.
#[derive(Clone, Copy)]
pub struct CommandAsked {
    pub bits: u16,
    pub fields: [u16; 2],
    pub user: u32,
    pub active_readback: usize,
}

/// Replies go to E4–FA while it is open. What closed it is for the tally alone.
#[derive(Clone, Copy, PartialEq)]
pub enum Window {
    Closed,
    Open,
    ClosedBySetpoint,
    ClosedByGroupEnd,
}

#[derive(Clone)]
pub struct Channel {
    pub w: [u16; 128],
    pub armed: bool,
    pub function: Option<Function>,
    pub count: u32,
    pub stored: [usize; 2],
    pub waiting: Option<Waiting>,
    pub window: Window,
    /// A tag that is not yet used (document 02, request 6).
    pub is_tag_pending: bool,
    /// The retired count that a download remembers, while one is open (document 02, request 8).
    pub download: Option<usize>,
    /// What the last tick since opening or reset did (document 02, request 10).
    pub last_tick: LastTick,
    /// Command frames since the setpoint count was cleared (for the tally alone).
    pub commands: u32,
}

// Half offsets in `w`.
pub const ENABLE: usize = 0x00 / 2;
pub const CLOCK: usize = 0x0A / 2;
pub const MISSING: usize = 0x0C / 2;
pub const ACTIVE: usize = 0x0E / 2;
pub const COUNT: usize = 0x10 / 2;
pub const ID: usize = 0x14 / 2;
pub const START: usize = 0x20 / 2;
pub const END: usize = 0x2A / 2;
pub const TAG: usize = 0x2C / 2;
pub const SWITCH: usize = 0x30 / 2;
pub const DELAYS: usize = 0x40 / 2;
pub const COMMAND: usize = 0xE0 / 2;
pub const PAIRS: usize = 0xE4 / 2;
pub const REPLIED: usize = 0xFE / 2;

impl Channel {
    pub fn new() -> Channel {
        Channel {
            w: [0; 128],
            armed: false,
            function: None,
            count: 0,
            stored: [0, 0],
            waiting: None,
            window: Window::Closed,
            is_tag_pending: false,
            download: None,
            last_tick: LastTick::NoTick,
            commands: 0,
        }
    }
    /// The user's start delay (k = 0) or resume k delay: "per user: high byte, then low word".
    pub fn delay(&self, k: u32, user: u32) -> u64 {
        let at = DELAYS + 16 * k as usize + 2 * (user as usize - 1);
        (self.w[at] as u64) << 16 | self.w[at + 1] as u64
    }
    /// The delay that the same would load now, by the registers.
    pub fn delay_of(&self, loaded: Loaded, user: u32) -> u64 {
        let by_command = loaded.start.is_some_and(|how| how.by_command) || loaded.resume == 5;
        if by_command { 0 } else { self.delay(loaded.resume, user) }
    }
    /// "0, 1, 2, 3 give a period of 10,000, 1,000, 100, 10 µs"
    pub fn period(&self) -> u64 {
        [10_000, 1_000, 100, 10][self.w[CLOCK] as usize]
    }
    pub fn active_readback(&self) -> usize {
        (self.w[ACTIVE] >> 8 & 1) as usize
    }
    pub fn active_setpoint(&self, user: u32) -> u32 {
        (self.w[ACTIVE] >> (user - 1) & 1) as u32
    }
}
