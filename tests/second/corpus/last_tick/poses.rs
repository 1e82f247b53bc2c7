//! Files that are the same for any seed: the four channels posed so that one tick tells four things, and then what may
//! come after it.

use super::{ask_all_roles, NO_CHANNEL};
use crate::corpus::dice::Dice;
use crate::corpus::story::BASE;
use crate::corpus::world::{Op, World};
use crate::last_tick::LastTick;
use crate::role::Role;

/// A pose: what is told of each channel after the last of so many ticks.
#[derive(Clone, Copy)]
struct Pose {
    told: [LastTick; 4],
    ticks: u32,
    /// Another tick tells another thing, where it can be.
    is_at_edge: bool,
    /// The bit of the first word: pause 1 or VME pause.
    hold: u32,
    /// The last tick is a record of its own.
    is_single: bool,
}

const HALVES: [[LastTick; 4]; 2] = [
    [LastTick::Sent, LastTick::StartDelay, LastTick::StartGap, LastTick::ResumeGap],
    [LastTick::BetweenEdges, LastTick::Idle, LastTick::Disarmed, LastTick::NoTick],
];

/// Event codes of a change, for all channels, and of a pose, for one: 60h + c to start it, 70h + c to resume it.
const START: u16 = 0x51;
const RESUME: u16 = 0x52;
const END: u16 = 0x53;

impl Pose {
    /// The half of this number, each of its four told of channel 1 in one of four rounds.
    fn new(half: usize, round: usize, is_at_edge: bool) -> Pose {
        let mut told = HALVES[half];
        told.rotate_left(round % 4);
        Pose { told, ticks: 60, is_at_edge, hold: 16, is_single: round % 2 == 1 }
    }

    /// The delay after which the last tick is told so.
    fn delay(self, told: LastTick) -> u32 {
        let before_end = match (told, self.is_at_edge) {
            (LastTick::Sent, _) => 10,
            (LastTick::StartDelay, true) => 0,
            (LastTick::StartDelay, false) => return self.ticks + 40,
            (LastTick::StartGap | LastTick::ResumeGap, true) => 9,
            (LastTick::StartGap | LastTick::ResumeGap, false) => 5,
            (LastTick::BetweenEdges, true) => 19,
            _ => 15,
        };
        self.ticks - before_end
    }

    fn strike(self, world: &mut World, d: &Dice) {
        for c in 1..=4 {
            self.prepare(world, d, c);
        }
        world.put(Op::Ticks(10), d);
        for c in 1..=4 {
            let code = match self.told[c as usize - 1] {
                LastTick::ResumeGap => 0x70 + c as u8,
                LastTick::Idle | LastTick::Disarmed | LastTick::NoTick => continue,
                _ => 0x60 + c as u8,
            };
            world.put(Op::Event(code), d);
        }
        let last = self.is_single as u32;
        world.put(Op::Ticks(self.ticks - last), d);
        if self.is_single {
            world.put(Op::Ticks(1), d);
        }
        for c in (1..=4).filter(|c| self.told[*c as usize - 1] == LastTick::NoTick) {
            world.put(Op::Write(BASE * c + 6, 1), d);
        }
    }

    /// What stands before the pose's first tick. One that is to be resumed is started by command, and so pauses on its tenth.
    fn prepare(self, world: &mut World, d: &Dice, c: u32) {
        let (at, told) = (BASE * c, self.told[c as usize - 1]);
        let delay = self.delay(told);
        let offset = if told == LastTick::ResumeGap { 0x60 } else { 0x40 };
        world.put(Op::Set { c, user: 1, buffer: 1, index: 0, word: 1 << self.hold | c }, d);
        // 1,000 µs where there are many ticks, so that frames are few
        world.put(Op::Write(at + 0x0A, if self.ticks > 1_000 && !self.is_at_edge { 1 } else { 3 }), d);
        world.put(Op::Write(at + offset, (delay >> 16) as u16), d);
        world.put(Op::Write(at + offset + 2, delay as u16), d);
        world.put(Op::Write(at + 0x20, 0x160 + c as u16), d);
        world.put(Op::Write(at + 0x22, 0x170 + c as u16), d);
        if !matches!(told, LastTick::Disarmed | LastTick::NoTick) {
            world.put(Op::Arm(c), d);
        }
        if told == LastTick::ResumeGap {
            world.put(Op::Write(at + 8, 1), d);
        }
    }
}

/// Command frames: the bits of FC, what comes between, and the ticks.
const COMMANDS: [(u16, Between, u32); 10] = [
    (1, Between::Nothing, 1), (1, Between::StartEvent, 1), (1, Between::StartCommand, 1), (1, Between::StartEvent, 2),
    (2, Between::End, 1), (2, Between::EndAndStartEvent, 1), (2, Between::EndAndStartCommand, 1), (2, Between::End, 2),
    (2, Between::EndAndStartEvent, 2), (2, Between::EndAndStartCommand, 2),
];

#[derive(Clone, Copy)]
enum Between {
    Nothing,
    StartEvent,
    StartCommand,
    End,
    EndAndStartEvent,
    EndAndStartCommand,
}

/// The changes that are no command frames, and so many changes there are.
const PLAIN: usize = 19;
const CHANGES: usize = PLAIN + COMMANDS.len();

/// A write to a register of each channel.
fn write_all(world: &mut World, d: &Dice, offset: u32, value: u16) {
    (1..=4).for_each(|c| world.put(Op::Write(BASE * c + offset, value), d));
}

/// An event of this code, which the register at this offset of each channel has.
fn event(world: &mut World, d: &Dice, offset: u32, code: u16) {
    write_all(world, d, offset, 0x100 | code);
    world.put(Op::Event(code as u8), d);
}

/// Start, with this delay.
fn start(world: &mut World, d: &Dice, delay: u16) {
    write_all(world, d, 0x40, 0);
    write_all(world, d, 0x42, delay);
    event(world, d, 0x20, START);
}

/// The change of this number, to all channels.
fn change(world: &mut World, d: &Dice, number: usize) {
    match number {
        0 => {}
        1 => (1..=4).for_each(|c| world.put(Op::Disarm(c), d)),
        2 => event(world, d, 0x2A, END),
        3 => write_all(world, d, 8, 4),
        4 => world.put(Op::User(2), d),
        5 | 6 => start(world, d, if number == 5 { 50 } else { 0 }),
        7 => write_all(world, d, 8, 1),
        8 => {
            write_all(world, d, 0x62, 0);
            event(world, d, 0x22, RESUME);
        }
        9 => write_all(world, d, 8, 2),
        10 => (1..=4).for_each(|c| world.put(Op::Arm(c), d)),
        _ => more(world, d, number),
    }
}

/// Command frames, resets and what is no reset.
fn more(world: &mut World, d: &Dice, number: usize) {
    match number {
        11 => write_all(world, d, 0xFC, 1),
        12 | 13 => {
            write_all(world, d, 0xFC, 2);
            if number == 12 { event(world, d, 0x2A, END) } else { write_all(world, d, 8, 4) }
        }
        14 => write_all(world, d, 6, 0xFFFE),
        15 => write_all(world, d, 6, 1),
        16 | 17 => world.put(Op::Write(BASE * (number as u32 - 14) + 6, 1), d),
        18 => {
            write_all(world, d, 6, 1);
            world.put(Op::Ticks(1), d);
        }
        _ => {
            let (bits, between, ticks) = COMMANDS[number - PLAIN];
            write_all(world, d, 0xFC, bits);
            before_command(world, d, between);
            world.put(Op::Ticks(ticks), d);
        }
    }
}

fn before_command(world: &mut World, d: &Dice, between: Between) {
    match between {
        Between::Nothing => {}
        Between::StartEvent => start(world, d, 50),
        Between::StartCommand => write_all(world, d, 8, 1),
        Between::End => write_all(world, d, 8, 4),
        Between::EndAndStartEvent => {
            write_all(world, d, 0x2A, 0x100 | START);
            start(world, d, 50);
        }
        Between::EndAndStartCommand => write_all(world, d, 8, 5),
    }
}

/// With VME pauses for the change that resumes them.
fn posed(change: usize, half: usize, is_at_edge: bool) -> Pose {
    let hold = if change == 9 { 20 } else { 16 };
    Pose { hold, ..Pose::new(half, change, is_at_edge) }
}

/// Run files: each change after each half, and long records.
pub fn pose_files() -> Vec<(String, Vec<u8>)> {
    let d = &Dice::new(10);
    let mut files = Vec::new();
    for half in 0..2 {
        for number in 0..CHANGES {
            let mut world = World::run();
            posed(number, half, false).strike(&mut world, d);
            change(&mut world, d, number);
            files.push((format!("pose-{half}-{number:02}"), world.bytes));
        }
        for round in 0..4 {
            let mut world = World::run();
            Pose { ticks: 10_000, is_single: false, ..Pose::new(half, round, false) }.strike(&mut world, d);
            files.push((format!("pose-{half}-long-{round}"), world.bytes));
        }
    }
    files
}

fn open(world: &mut World, d: &Dice) {
    world.put(Op::OpenFor { n: 4, m: 4, access: [0xFF, 0x0F] }, d);
}

fn script() -> World {
    World::script_of_examiner([4, 4, 10, 0xFFFF].map(u32::to_le_bytes).concat())
}

fn ask_all(world: &mut World, d: &Dice) {
    (1..=4).for_each(|c| ask_all_roles(world, d, c));
}

/// What would be a tick or a reset, but is refused or none.
fn refused(world: &mut World, d: &Dice) {
    world.put_refused_as(Role::Examiner, Op::Ticks(1), d);
    ask_all(world, d);
    world.put_as(Role::Watcher, Op::Ticks(1), d);
    ask_all(world, d);
    world.put_as(Role::Watcher, Op::Ticks(0), d);
    world.put(Op::Ticks(0), d);
    ask_all(world, d);
    for c in 1..=4 {
        world.put_refused_as(Role::Examiner, Op::Write(BASE * c + 6, 1), d);
        world.put_as(Role::Watcher, Op::Write(BASE * c + 6, 1), d);
    }
    ask_all(world, d);
}

/// Scripts, with a name: each change after each half, away from an edge and at it, asked before it and after it.
pub fn pose_scripts() -> Vec<(String, Vec<u8>)> {
    let d = &Dice::new(11);
    let mut scripts = Vec::new();
    for (half, is_at_edge) in [(0, false), (0, true), (1, false), (1, true)] {
        let mut world = script();
        for number in 0..CHANGES {
            open(&mut world, d);
            posed(number, half, is_at_edge).strike(&mut world, d);
            ask_all(&mut world, d);
            change(&mut world, d, number);
            ask_all(&mut world, d);
            if number < 12 {
                refused(&mut world, d);
            }
            world.put(Op::Ticks(1), d);
            ask_all(&mut world, d);
        }
        scripts.push((format!("pose-{half}{}", if is_at_edge { "-edge" } else { "" }), world.bytes));
    }
    scripts.push(("pose-long".into(), long_script(d)));
    scripts.push(("pose-closed".into(), closed_script(d)));
    scripts
}

/// The longest records there are.
fn long_script(d: &Dice) -> Vec<u8> {
    let mut world = script();
    for (half, is_at_edge) in [(0, false), (0, true), (1, false)] {
        for round in 0..4 {
            open(&mut world, d);
            let pose = Pose { ticks: 65_535, is_single: false, ..Pose::new(half, round, is_at_edge) };
            // at the edge of a period of 10 the frames would be many
            Pose { hold: if is_at_edge { 31 } else { 16 }, ..pose }.strike(&mut world, d);
            (1..=4).for_each(|c| world.put(Op::LastTick { c, lent: 0 }, d));
        }
    }
    world.bytes
}

/// Openings, refused and not, and closed boards that come to no send.
fn closed_script(d: &Dice) -> Vec<u8> {
    let mut world = script();
    for round in 0..4 {
        open(&mut world, d);
        Pose::new(round % 2, round, false).strike(&mut world, d);
        ask_all(&mut world, d);
        let n = [0, 4][round / 2];
        world.put(Op::OpenFor { n, m: 4, access: [0x0F, 0xFF] }, d);
        ask_all(&mut world, d);
        NO_CHANNEL.iter().for_each(|c| ask_all_roles(&mut world, d, *c));
        world.put(Op::Ticks(0), d);
        ask_all(&mut world, d);
        world.put_refused_as(Role::Examiner, Op::Ticks(1), d);
        ask_all(&mut world, d);
        delayed(&mut world, d);
    }
    world.bytes
}

/// One tick disarmed, one idle, and then a delay of 3 and its gap.
fn delayed(world: &mut World, d: &Dice) {
    world.put(Op::Ticks(1), d);
    ask_all(world, d);
    (1..=4).for_each(|c| world.put(Op::Arm(c), d));
    world.put(Op::Ticks(1), d);
    ask_all(world, d);
    write_all(world, d, 0x42, 3);
    event(world, d, 0x20, START);
    for ticks in [1, 2, 1, 8] {
        world.put(Op::Ticks(ticks), d);
        ask_all(world, d);
    }
    write_all(world, d, 8, 4);
    world.put(Op::Ticks(1), d);
    ask_all(world, d);
}
