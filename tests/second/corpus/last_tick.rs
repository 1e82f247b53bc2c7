//! Acts around what the last tick did (document 02, request 10): asked before and after what may come between, and files
//! that end where it is asked.

mod poses;
mod walks;

pub use self::poses::{pose_files, pose_scripts};
pub use self::walks::{walk_files, walk_script, WALKS};
use super::acts::{event_for, Scene};
use super::aside::aside;
use super::commands::group_end;
use super::dice::Dice;
use super::story::{story_of_last_ticks, BASE, DEPTHS_M, DEPTHS_N};
use super::tag::load;
use super::world::{Op, World};
use crate::role::Role;

const ROLES: [Role; 3] = [Role::Examiner, Role::Candidate, Role::Watcher];

/// Numbers of no channel, some with the low bits of one.
const NO_CHANNEL: &[u32] = &[0, 5, 255, 9, 132, 6];

/// The script number `i`.
pub fn last_tick_script(d: &Dice, i: u32) -> Vec<u8> {
    let m = DEPTHS_M[i as usize % DEPTHS_M.len()];
    let header = [d.of(DEPTHS_N), m, d.roll() as u32, 0xFFFF].map(u32::to_le_bytes).concat();
    let mut world = if d.chance(50) { World::script_of_roles(header) } else { World::script(header, d.of(&[0, 3])) };
    story_of_last_ticks(&mut world, d, 40);
    world.bytes
}

/// The call, now and then of another channel too, or of none. A lent code means nothing.
pub fn ask(world: &mut World, s: &Scene) {
    let d = s.d;
    let lent = || d.of(&[0, 0, 0, 0, 1, 2, 3, 4, 9]);
    world.put(Op::LastTick { c: s.c, lent: lent() }, d);
    if d.chance(30) {
        world.put(Op::LastTick { c: 1 + (s.c + d.below(3)) % 4, lent: lent() }, d);
    }
    if d.chance(3) {
        world.put(Op::LastTick { c: d.of(NO_CHANNEL), lent: lent() }, d);
    }
}

/// By each role.
fn ask_all_roles(world: &mut World, d: &Dice, c: u32) {
    for role in ROLES {
        world.put_as(role, Op::LastTick { c, lent: 0 }, d);
    }
}

/// One act of a story.
pub fn last_tick(world: &mut World, s: &Scene) {
    let d = s.d;
    for _ in 0..1 + d.below(4) {
        let p = s.now(world);
        let is_paused = p.pause > 0 && p.resume == 0;
        if d.chance(if is_paused { 70 } else { 30 }) {
            wait(world, s);
        }
        ticks_around(world, s);
        ask(world, s);
        for _ in 0..d.below(3) {
            after(world, s);
            ask(world, s);
        }
    }
}

/// A Start or a Resume with some delay.
fn wait(world: &mut World, s: &Scene) {
    let d = s.d;
    let ticks = d.of(&[0, 1, 2, 5, 9, 10, 11, 19, 20, 21, 60, d.below(300), d.below(3_000)]) as u16;
    let (pause, user) = (s.now(world).pause, s.user);
    let k = if (1..=4).contains(&pause) { pause } else { 0 };
    let at = s.at() + 0x40 + 0x20 * k + 4 * (user - 1);
    world.put(Op::Write(at, 0), d);
    world.put(Op::Write(at + 2, ticks), d);
    if k == 0 && d.chance(50) {
        let hold = 1 << d.of(&[16, 17, 18, 19, 20, 31]);
        load(world, s, user, &d.of(&[[hold, 1, 2], [0, hold, 1], [0, 0, 0]]));
    }
    world.put(Op::Arm(s.c), d);
    let op = match (pause, k) {
        (5, _) => Op::Write(s.at() + 8, d.of(&[2, 2, 1])),
        (_, 0) if d.chance(25) => Op::Write(s.at() + 8, d.of(&[1, 5])),
        _ => event_for(world, s, 0x20 + 2 * k),
    };
    world.put(op, d);
}

/// Ticks that end around the end of a delay, a gap or a period.
fn ticks_around(world: &mut World, s: &Scene) {
    let d = s.d;
    let p = s.now(world);
    let wait = if p.resume > 0 && d.chance(70) { p.resume } else { p.wait }.min(9_000) as u32;
    let near = [0, 1, 1, 9, 10, 10, 11].map(|ticks| wait.saturating_sub(ticks));
    let count = if wait > 0 && d.chance(70) { d.of(&near) } else { d.of(&[1, 1, 2, 8, 9, 10, 11, wait + 1, d.below(60)]) };
    world.put(Op::Ticks(count.max(1)), d);
}

/// What may come after a tick, and leaves what is told, a reset and an opening alone excepted.
fn after(world: &mut World, s: &Scene) {
    let d = s.d;
    let op = match d.weighed(&[10, 10, 14, 10, 6, 8, 6, 10, 8, 10, 6, 2]) {
        0 => Op::Disarm(s.c),
        1 => Op::Arm(s.c),
        2 if d.chance(50) => event_for(world, s, 0x20),
        2 => Op::Write(s.at() + 8, d.of(&[1, 2, 3, 5])),
        3 => group_end(world, s),
        4 => Op::User(1 + d.below(s.t.users)),
        5 => Op::Write(s.at() + 0xFC, d.of(&[1, 1, 2])),
        6 => Op::Write(s.at() + 6, d.of(&[1, 1, 0, 2])),
        7 => return refused(world, s),
        8 => Op::Ticks(0),
        9 => return aside(world, s),
        10 => Op::Write(s.at() + 0x0A, d.of(&[3, 3, 2])),
        _ => Op::OpenFor { n: d.of(&[0, 1, 4]), m: 3, access: [d.of(&[0xFF, 0x0F, 0x55]), d.of(&[0x0F, 0xFF, 0xA0])] },
    };
    world.put(op, d);
}

/// Ticks and resets that are refused, by their length or their role.
fn refused(world: &mut World, s: &Scene) {
    let d = s.d;
    let op = d.of(&[Op::Ticks(1), Op::Ticks(1), Op::Ticks(12), Op::Write(s.at() + 6, 1)]);
    if d.chance(50) || !world.is_script() {
        world.put_refused(op, d);
    } else {
        world.put_as(Role::Watcher, op, d);
    }
}

/// The end of a run file: where its last tick stands, and what comes after it.
pub fn ending(world: &mut World, d: &Dice, c: u32) {
    let at = BASE * c;
    let wait = world.board().peek(c as usize - 1).wait.min(9_000) as u32;
    if d.chance(60) {
        world.put(Op::Ticks(d.of(&[wait, wait.saturating_sub(1), wait + 1, 1, 9]).max(1)), d);
    }
    let writes = [(8, 1), (8, 4), (6, 1), (0xFC, 1)].map(|(offset, value)| Op::Write(at + offset, value));
    let ops = [&writes[..], &[Op::Disarm(c), Op::Arm(c), Op::User(1 + d.below(8))]].concat();
    if d.chance(60) {
        world.put(d.of(&ops), d);
    }
}
