//! Acts around ramps (document 02, request 4), of scripts alone: breakpoints are laid into the readback pool, a good ramp
//! is asked for, and ramps that break one rule; then, now and then, what was written is sent.

use super::dice::Dice;
use super::story::{story, BASE, DEPTHS_M, DEPTHS_N};
use super::world::{Op, World};
use std::collections::BTreeSet;

/// The words that are lent at most for the codes, and as many for the remainders.
const LENT: u32 = 1_024;

/// A ramp as it is asked for: breakpoints as their two words, and how many words are lent.
#[derive(Clone)]
struct Ramp {
    points: Vec<(u32, u32)>,
    n: u32,
    codes: u32,
    remainders: u32,
}

/// Codes alike in kind: the ends of their range, few and small, or any.
fn code(d: &Dice, kind: u32) -> i16 {
    let any = d.roll() as i16;
    match kind {
        0 => d.of(&[i16::MIN, i16::MAX]),
        1 => d.of(&[0, 1, -1, i16::MIN, i16::MAX, any]),
        2 => d.below(12) as i16 - 6,
        3 => -(d.below(1_000) as i16),
        4 => d.below(1_000) as i16,
        _ => any,
    }
}

/// So many breakpoints that rise from 0 to the last index.
fn rising(d: &Dice, count: u32, last: u32) -> Vec<(u32, u32)> {
    let mut indices = BTreeSet::from([0, last]);
    while indices.len() < count as usize {
        indices.insert(d.below(last));
    }
    let kind = d.below(6);
    // the code's high bits mean nothing
    let high = |d: &Dice| if d.chance(30) { (d.roll() as u32) << 16 } else { 0 };
    indices.iter().map(|&index| (index, high(d) | code(d, kind) as u16 as u32)).collect()
}

/// A ramp that breaks no rule, of at most so many breakpoints.
fn good(d: &Dice, most: u32) -> Ramp {
    let count = d.of(&[2, 2, 2, 2, 2, 3, 3, 4, 5 + d.below(8), d.of(&[63, 64])]).min(most);
    let n = d.of(&[2, 3, 4, 5, 8, 16, 33, 65, LENT, LENT, 2 + d.below(62), 2 + d.below(LENT - 1)]).max(count);
    let last = if d.chance(50) { n - 1 } else { (1 + d.below(n - 1)).max(count - 1) };
    let lent = || d.of(&[n, n, n + 1, n + 1 + d.below(8), LENT, LENT + 1, 0xFFFF]);
    Ramp { points: rising(d, count, last), n, codes: lent(), remainders: lent() }
}

/// Too many breakpoints, and no other rule broken. At most 256 of them are read.
fn crowd(d: &Dice) -> Ramp {
    let count = d.of(&[65, 65, 65, 66, 128, 256]);
    let n = count + d.below(LENT - count + 1);
    Ramp { points: rising(d, count, n - 1), n, codes: n, remainders: LENT }
}

/// One rule broken, and the others kept as far as can be.
fn spoilt(d: &Dice, good: &Ramp) -> Ramp {
    let mut r = good.clone();
    let n = r.n;
    match d.weighed(&[4, 4, 6, 6, 6, 6, 8, 8, 24, 24]) {
        0 => r.points.clear(),
        1 => r.points.truncate(1),
        2 => r.n = 0,
        3 => r.n = 1,
        4 => r.n = d.of(&[(1 << 20) + 1, (1 << 20) + 2, (1 << 20) + n, 1 << 31, u32::MAX, d.roll() as u32]),
        5 => r.n = d.of(&[LENT + 1, LENT + 2, 1 << 16, (1 << 16) + n, 1 << 20]),
        6 => first_index(d, &mut r),
        7 => last_index(d, &mut r),
        8 => neighbours(d, &mut r),
        _ => lengths(d, &mut r),
    }
    r
}

/// The first index is not 0.
fn first_index(d: &Dice, r: &mut Ramp) {
    let next = r.points[1].0;
    if r.points.len() > 2 && d.chance(50) {
        r.points.remove(0);
    } else {
        r.points[0].0 = if next > 1 { 1 + d.below(next - 1) } else { d.of(&[1, u32::MAX]) };
    }
}

/// The last index is not below N.
fn last_index(d: &Dice, r: &mut Ramp) {
    let (end, n) = (r.points.len() - 1, r.n);
    r.points[end].0 = d.of(&[n, n, n + 1, n + d.below(1_000), (1 << 16) + n, 1 << 31, u32::MAX, u32::MAX]);
}

/// Two neighbours are equal, or fall.
fn neighbours(d: &Dice, r: &mut Ramp) {
    let k = 1 + d.below(r.points.len() as u32 - 1) as usize;
    let before = r.points[k - 1].0;
    match d.below(3) {
        1 if before > 0 => r.points[k].0 = d.below(before),
        // the first of the two is too high, unless it is the list's first
        2 if k > 1 => r.points[k - 1].0 = d.of(&[r.points[k].0 + 1, r.points[k].0 + d.below(2_000), u32::MAX]),
        _ => r.points[k].0 = before,
    }
}

/// A buffer is too short for N, though perhaps not for the ramp.
fn lengths(d: &Dice, r: &mut Ramp) {
    let needed = r.points[r.points.len() - 1].0 + 1;
    let short = d.of(&[r.n - 1, r.n - 1, needed.min(r.n - 1), d.below(r.n), 0]);
    match d.below(5) {
        0 | 1 => r.codes = short,
        2 | 3 => r.remainders = short,
        _ => (r.codes, r.remainders) = (short, short),
    }
}

/// The breakpoints go to the readback pool, where others may stand: only what differs from them.
fn lay(world: &mut World, d: &Dice, stand: &[(u32, u32)], points: &[(u32, u32)]) {
    for (i, &(index, code)) in points.iter().enumerate() {
        let (old, at) = (stand.get(i), 2 * i as u32);
        if old.is_none_or(|o| o.0 != index) {
            world.put(Op::Poke { readbacks: true, at, word: index }, d);
        }
        if old.is_none_or(|o| o.1 != code) {
            world.put(Op::Poke { readbacks: true, at: at + 1, word: code }, d);
        }
    }
}

fn ask(world: &mut World, d: &Dice, r: &Ramp) {
    let mut count = r.points.len() as u32;
    if count == 256 {
        // no more are read
        count = d.of(&[256, 257, 0xFFFF]);
    }
    world.put(Op::Ramp { n: r.n, count, codes: r.codes, remainders: r.remainders }, d);
}

/// Words set at a breakpoint, where the ramp ends and where N ends, so that it shows if they stay.
fn mark(world: &mut World, d: &Dice, r: &Ramp) {
    let (any, end) = (d.below(r.points.len() as u32) as usize, r.points[r.points.len() - 1].0 + 1);
    for at in [r.points[any].0, end, r.n] {
        if at < LENT {
            world.put(Op::Poke { readbacks: false, at, word: d.roll() as u32 | 1 << 31 }, d);
            world.put(Op::Poke { readbacks: false, at: LENT + at, word: d.roll() as u32 | 1 }, d);
        }
    }
}

/// Whatever stands in the readback pool, by any numbers.
fn as_it_stands(world: &mut World, d: &Dice) {
    let any = d.roll() as u32;
    let n = d.of(&[4, 32, LENT, any, any % 2_000]);
    let count = d.of(&[2, 2, 3, 64, any >> 16]);
    let (codes, remainders) = (d.of(&[n & 0xFFFF, LENT, any & 0xFFFF]), d.of(&[n & 0xFFFF, LENT, any >> 16]));
    world.put(Op::Ramp { n, count, codes, remainders }, d);
}

/// Ramps that are refused, by the breakpoints that stand in the pool and others.
fn refusals(world: &mut World, d: &Dice, good: &Ramp, count: u32) {
    for _ in 0..count {
        let bad = spoilt(d, good);
        lay(world, d, &good.points, &bad.points);
        ask(world, d, &bad);
        lay(world, d, &bad.points, &good.points);
    }
}

/// A ramp of at most so many breakpoints, and a few that are refused, before it or after it.
pub fn ramps(world: &mut World, d: &Dice, most: u32) {
    if d.chance(10) {
        as_it_stands(world, d);
    }
    let good = good(d, most);
    lay(world, d, &[], &good.points);
    for is_last in [false, true] {
        if d.chance(40) {
            mark(world, d, &good);
        }
        if is_last {
            refusals(world, d, &good, d.below(5));
        }
        if d.chance(70) {
            ask(world, d, &good);
        }
    }
}

/// What stands in the first words is sent by channel 1, and on a board of N 32 the first remainders by channel 3.
fn send(world: &mut World, d: &Dice) {
    for c in [1, 3] {
        world.put(Op::Write(BASE * c + 0x0A, 3), d);
        world.put(Op::Arm(c), d);
        world.put(Op::Write(BASE * c + 8, 1), d);
    }
    let most = world.board().n + 1;
    world.put(Op::Ticks(10 * (1 + d.below(most))), d);
}

/// A script of ramps, on a board that is closed at first or not, with a story now and then between them.
pub fn ramp_script(d: &Dice, i: u32) -> Vec<u8> {
    let n = if i % 3 == 0 { 0 } else { d.of(&[32, 32, d.of(DEPTHS_N)]) };
    let header = [n, d.of(DEPTHS_M), d.roll() as u32, d.of(&[0xFFFF, u32::MAX, u32::MAX])];
    let mut world = World::script(header.map(u32::to_le_bytes).concat(), d.of(&[0, 3]));
    for _ in 0..12 {
        ramps(&mut world, d, 64);
        if d.chance(15) {
            let crowd = crowd(d);
            lay(&mut world, d, &[], &crowd.points);
            ask(&mut world, d, &crowd);
        }
        match d.weighed(&[50, 30, 20]) {
            0 => {}
            1 => send(&mut world, d),
            _ => story(&mut world, d, 4),
        }
    }
    // after these nothing is written, so that the words at the end show what they left
    let good = good(d, 8);
    lay(&mut world, d, &[], &good.points);
    mark(&mut world, d, &good);
    refusals(&mut world, d, &good, 6);
    world.bytes
}
