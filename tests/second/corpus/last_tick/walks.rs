//! Files that are the same for any seed: ticks around the ends of delays, gaps and periods.

use super::ask_all_roles;
use crate::corpus::dice::Dice;
use crate::corpus::story::BASE;
use crate::corpus::world::{Op, World};
use crate::last_tick::rows::To;

const SHORT: [u32; 8] = [0, 1, 2, 5, 9, 10, 11, 25];
const LONG: [u32; 6] = [300, 5_000, 65_525, 65_535, 65_536, 70_000];

/// The scripts of walks, by name.
pub const WALKS: [&str; 5] = ["start", "resume", "resume-long", "restart", "edge"];

pub fn walk_script(name: &str) -> Vec<u8> {
    let d = &Dice::new(12);
    let mut world = World::script_of_examiner([4, 4, 12, 0xFFFF].map(u32::to_le_bytes).concat());
    match name {
        "start" => SHORT.iter().chain(&LONG).for_each(|delay| start(&mut world, d, *delay)),
        "resume" => SHORT.iter().for_each(|delay| resume(&mut world, d, *delay)),
        "resume-long" => LONG.iter().for_each(|delay| resume(&mut world, d, *delay)),
        "restart" => restart(&mut world, d),
        _ => (0..4).for_each(|clock| edges(&mut world, d, clock)),
    }
    world.bytes
}

/// The numbers of ticks around a delay's ends.
fn around(delay: u32) -> Vec<u32> {
    let mut numbers = vec![1, delay.saturating_sub(1), delay];
    numbers.extend([1, 2, 8, 9, 10, 11].map(|more| delay + more));
    numbers.retain(|number| *number > 0);
    numbers.sort();
    numbers.dedup();
    numbers
}

/// As many ticks, in as few records as there can be.
fn ticks(world: &mut World, d: &Dice, mut count: u32) {
    let most = if world.is_script() { 65_535 } else { 10_000 };
    while count > 0 {
        world.put(Op::Ticks(count.min(most)), d);
        count -= count.min(most);
    }
}

fn set_delay(world: &mut World, d: &Dice, at: u32, delay: u32) {
    world.put(Op::Write(at, (delay >> 16) as u16), d);
    world.put(Op::Write(at + 2, delay as u16), d);
}

/// The shortest period, but where ticks are many.
fn clock(delay: u32) -> u16 {
    match delay {
        0..=999 => 3,
        1_000..=65_535 => 1,
        _ => 0,
    }
}

/// A channel armed, with these first words; event C1h is its Start, and C2h its Resume 1–4.
fn arm(world: &mut World, d: &Dice, c: u32, words: &[u32]) {
    let at = BASE * c;
    world.put(Op::Write(at + 8, 4), d);
    world.put(Op::Disarm(c), d);
    for (index, word) in words.iter().enumerate() {
        world.put(Op::Set { c, user: 1, buffer: 1, index: index as u32, word: word | c }, d);
    }
    world.put(Op::Write(at + 0x20, 0x1C1), d);
    (1..=4).for_each(|k| world.put(Op::Write(at + 0x20 + 2 * k, 0x1C2), d));
    world.put(Op::Arm(c), d);
}

/// The ticks of a wait one part after the other, each asked about.
fn walk(world: &mut World, d: &Dice, c: u32, delay: u32) {
    let mut done = 0;
    for number in around(delay) {
        ticks(world, d, number - done);
        done = number;
        ask_all_roles(world, d, c);
    }
}

/// A Start with this delay, on a channel of its own: step by step, and then each number of ticks in one record, half of
/// them after the register was written anew.
fn start(world: &mut World, d: &Dice, delay: u32) {
    let c = 1 + delay % 4;
    arm(world, d, c, &[0, 0]);
    world.put(Op::Write(BASE * c + 0x0A, clock(delay)), d);
    set_delay(world, d, BASE * c + 0x40, delay);
    world.put(Op::Event(0xC1), d);
    walk(world, d, c, delay);
    for (i, number) in around(delay).into_iter().filter(|number| *number <= 65_535).enumerate() {
        arm(world, d, c, &[0, 0]);
        set_delay(world, d, BASE * c + 0x40, delay);
        world.put(Op::Event(0xC1), d);
        if i % 2 == 0 || number == delay + 1 {
            set_delay(world, d, BASE * c + 0x40, [delay + 7, delay / 2][i / 2 % 2]);
        }
        ticks(world, d, number);
        ask_all_roles(world, d, c);
    }
    world.put(Op::Disarm(c), d);
}

/// A pause sent, and its Resume some ticks later; VME pauses have no delay.
fn pause(world: &mut World, d: &Dice, c: u32, k: u32, delay: u32, later: u32) {
    arm(world, d, c, &[1 << (15 + k), 0]);
    world.put(Op::Write(BASE * c + 0x0A, clock(delay)), d);
    world.put(Op::Write(BASE * c + 8, 1), d);
    ticks(world, d, 10 + later);
    if k < 5 {
        set_delay(world, d, BASE * c + 0x40 + 0x20 * k, delay);
        world.put(Op::Event(0xC2), d);
    } else {
        world.put(Op::Write(BASE * c + 8, 2), d);
    }
}

/// A Resume with this delay, so long after its pause that the delay's first tick is a repeat's, its last, or neither.
fn resume(world: &mut World, d: &Dice, delay: u32) {
    let period = [10_000, 1_000, 100, 10][clock(delay) as usize];
    let laters = [0, period - 1, (period - delay % period) % period, (period + 4 - delay % period) % period];
    for (i, later) in laters.iter().copied().enumerate() {
        let (c, k) = (1 + (delay + i as u32) % 4, 1 + i as u32);
        pause(world, d, c, k, delay, later);
        if i % 2 == 1 {
            set_delay(world, d, BASE * c + 0x40 + 0x20 * k, [delay + 7, delay / 2][i / 2]);
        }
        walk(world, d, c, delay);
        world.put(Op::Disarm(c), d);
    }
    if delay > 25 {
        return;
    }
    for (i, number) in around(delay).into_iter().enumerate() {
        let (c, k) = (1 + i as u32 % 4, 1 + i as u32 % if delay == 0 { 5 } else { 4 });
        pause(world, d, c, k, delay, i as u32);
        ticks(world, d, number);
        ask_all_roles(world, d, c);
        world.put(Op::Disarm(c), d);
    }
    if delay == 0 {
        pause(world, d, 1, 5, 0, 3);
        walk(world, d, 1, 0);
    }
}

/// Starts by event and by command, of a channel that is idle, runs, or ends its group with them.
fn restart(world: &mut World, d: &Dice) {
    for (by_command, to) in [false, true].iter().flat_map(|by| [To::Idle, To::Running, To::Ended].map(|to| (*by, to))) {
        for number in around(if by_command { 0 } else { 6 }) {
            let c = 1 + number % 4;
            arm(world, d, c, &[0, 0]);
            world.put(Op::Write(BASE * c + 0x0A, 3), d);
            set_delay(world, d, BASE * c + 0x40, 6);
            world.put(Op::Write(BASE * c + 0x2A, if to == To::Ended { 0x1C1 } else { 0 }), d);
            if to == To::Running {
                world.put(Op::Write(BASE * c + 8, 1), d);
                ticks(world, d, 7 + number);
            }
            let bits = if to == To::Ended { 5 } else { 1 };
            world.put(if by_command { Op::Write(BASE * c + 8, bits) } else { Op::Event(0xC1) }, d);
            ticks(world, d, number);
            ask_all_roles(world, d, c);
            world.put(Op::Disarm(c), d);
        }
    }
}

/// The ticks of a period: after a word, after the next, which is a pause's or last, and after its repeat.
fn edges(world: &mut World, d: &Dice, clock: u16) {
    let period = [10_000, 1_000, 100, 10][clock as usize];
    for (c, hold) in [(1, 31), (2, 17), (3, 31), (4, 19)] {
        arm(world, d, c, &[0, 1 << hold, 0]);
        world.put(Op::Write(BASE * c + 0x0A, clock), d);
        world.put(Op::Write(BASE * c + 8, 1), d);
    }
    ticks(world, d, 10);
    for _ in 0..3 {
        for count in [1, period / 2 - 1, period / 2 - 1, 1] {
            ticks(world, d, count);
            (1..=4).for_each(|c| ask_all_roles(world, d, c));
        }
    }
}

/// Run files: four channels with delays that end around one tick, and with each period.
pub fn walk_files() -> Vec<(String, Vec<u8>)> {
    let d = &Dice::new(13);
    let mut files = Vec::new();
    let groups = [
        (1, [0, 1, 5, 300]), (9, [0, 9, 8, 2]), (10, [0, 1, 2, 10]), (11, [0, 1, 2, 10]), (100, [100, 99, 91, 90]),
        (100, [89, 92, 88, 101]),
    ];
    for (number, delays) in groups {
        let (mut started, mut resumed, mut later) = (World::run(), World::run(), World::run());
        start_four(&mut started, d, number, delays);
        resume_four(&mut resumed, d, number, delays, 0);
        resume_four(&mut later, d, number, delays, 9);
        let name = |what: &str| format!("walk-{what}-{number}-{}", delays[0]);
        files.extend([(name("start"), started.bytes), (name("resume"), resumed.bytes), (name("later"), later.bytes)]);
    }
    // 65,541 ticks to the first word of channel 4, which in 16 bits are 5
    let mut long = World::run();
    start_four(&mut long, d, 70_000, [70_000, 69_999, 69_991, 135_531]);
    files.push(("walk-start-long".into(), long.bytes));
    for period in [10, 100, 1_000, 10_000] {
        for (name, count) in [("first", 11), ("last", 9 + period), ("due", 10 + period)] {
            files.push((format!("walk-{name}-{period}"), of_period(d, count)));
        }
    }
    files
}

fn start_four(world: &mut World, d: &Dice, number: u32, delays: [u32; 4]) {
    for (c, delay) in (1..=4).zip(delays) {
        arm(world, d, c, &[0, 0]);
        world.put(Op::Write(BASE * c + 0x0A, 3), d);
        set_delay(world, d, BASE * c + 0x40, delay);
    }
    world.put(Op::Event(0xC1), d);
    ticks(world, d, number);
}

fn resume_four(world: &mut World, d: &Dice, number: u32, delays: [u32; 4], later: u32) {
    for (c, delay) in (1..=4).zip(delays) {
        arm(world, d, c, &[1 << (15 + c), 0]);
        world.put(Op::Write(BASE * c + 0x0A, 3), d);
        set_delay(world, d, BASE * c + 0x40 + 0x20 * c, delay);
        world.put(Op::Write(BASE * c + 8, 1), d);
    }
    ticks(world, d, 10 + later);
    world.put(Op::Event(0xC2), d);
    ticks(world, d, number);
}

/// The four channels with the four periods.
fn of_period(d: &Dice, count: u32) -> Vec<u8> {
    let mut world = World::run();
    for c in 1..=4 {
        arm(&mut world, d, c, &[0, 1 << 31]);
        world.put(Op::Write(BASE * c + 0x0A, 4 - c as u16), d);
        world.put(Op::Write(BASE * c + 8, 1), d);
    }
    ticks(&mut world, d, count);
    world.bytes
}
