//! Acts around downloads (document 02, request 8), of scripts alone: a group that retires, an opening, portions of it and
//! past it, and what may come between them.

mod between;

use self::between::{between, next_function};
use super::acts::Scene;
use super::commands::group_end;
use super::dice::Dice;
use super::end_word::{size, store};
use super::story::{story_of_downloads, DEPTHS_N};
use super::world::{lent_two, Op, World};

/// Numbers of no channel, some with the low bits of one.
const NO_CHANNEL: &[u32] = &[0, 0, 5, 5, 255, 255, 6, 9, 132];

/// Those that a few sends fill, and deeper ones.
const DEPTHS: &[u32] = &[5, 2, 7, 3, 13, 1, 4, 64, 6, 8];

/// The script number `i`.
pub fn download_script(d: &Dice, i: u32) -> Vec<u8> {
    let m = DEPTHS[i as usize % DEPTHS.len()];
    let header = [d.of(DEPTHS_N), m, d.roll() as u32, 0xFFFF].map(u32::to_le_bytes).concat();
    let mut world = World::script(header, d.of(&[0, 0, 3]));
    story_of_downloads(&mut world, d, 30);
    world.bytes
}

/// A channel's retired count.
fn retired_count(world: &World, s: &Scene) -> u32 {
    world.board().retired_count(s.c as usize - 1) as u32
}

/// A group, a download of it, and portions with what may come between them.
pub fn download(world: &mut World, s: &Scene) {
    let d = s.d;
    if d.chance(80) {
        group(world, s);
    }
    if d.chance(25) {
        // with none open, or one of an earlier act
        portion(world, s, retired_count(world, s));
    }
    open(world, s);
    let mut count = retired_count(world, s);
    if d.chance(25) {
        fetch(world, s, count);
    }
    for _ in 0..1 + d.below(4) {
        for _ in 0..d.below(3) {
            portion(world, s, count);
        }
        between(world, s, count);
        within(world, s, count);
        if d.chance(35) {
            open(world, s);
            count = retired_count(world, s);
        }
    }
}

/// A download opened at random, or a portion: what other stories have of them.
pub fn glance(world: &mut World, s: &Scene) {
    let count = retired_count(world, s);
    if s.d.chance(50) {
        open(world, s);
    }
    portion(world, s, count);
}

/// Readbacks, and the Group End that retires them.
fn group(world: &mut World, s: &Scene) {
    let wanted = size(world, s);
    store(world, s, wanted);
    world.put(group_end(world, s), s.d);
}

/// An opening, now and then of no channel before it. A lent code means nothing.
pub fn open(world: &mut World, s: &Scene) {
    let d = s.d;
    let lent = || d.of(&[0, 0, 0, 1, 2, 4, 6, 7]);
    if d.chance(8) {
        world.put(Op::Download { c: d.of(NO_CHANNEL), lent: lent() }, d);
        within(world, s, retired_count(world, s));
    }
    world.put(Op::Download { c: s.c, lent: lent() }, d);
}

/// The whole part in portions one after the other, while the next function runs or not.
fn fetch(world: &mut World, s: &Scene, count: u32) {
    let d = s.d;
    let runs = d.of(&[0, 70]);
    let mut first = 0;
    while first < count {
        let length = 1 + d.below((count - first).min(6));
        both(world, s, s.c, first, length, 0);
        first += length;
        if d.chance(runs) {
            next_function(world, s);
        }
    }
}

/// A first index and a length within a count, with words if there are any.
fn some(d: &Dice, count: u32) -> (u32, u32) {
    let first = d.below(count.max(1));
    (first, if count > 0 { 1 + d.below(count - first) } else { 0 })
}

/// A portion of words, if there are any.
pub fn within(world: &mut World, s: &Scene, count: u32) {
    let (first, length) = some(s.d, count);
    both(world, s, s.c, first, length, 0);
}

/// A portion of no channel, half the time of one whose number has this channel's low bits.
fn of_no_channel(world: &mut World, s: &Scene, count: u32) {
    let (first, length) = some(s.d, count);
    let c = if s.d.chance(50) { s.d.of(NO_CHANNEL) } else { s.c + 8 * (1 + s.d.below(31)) };
    both(world, s, c, first, length, if s.d.chance(80) { 0 } else { lent_two(s.d) });
}

/// Any portion, of this channel, another or none, with any lent code.
pub fn portion(world: &mut World, s: &Scene, count: u32) {
    let d = s.d;
    if d.chance(8) {
        return of_no_channel(world, s, count);
    }
    let (first, length) = range(d, count, world.board().m);
    let c = if d.chance(95) { s.c } else { 1 + (s.c + d.below(3)) % 4 };
    let lent = if d.chance(55) { 0 } else { lent_two(d) };
    both(world, s, c, first, length, lent);
    if d.chance(10) {
        both(world, s, c, first, length, 0);
    }
}

/// A portion and the call beside it, in either order.
fn both(world: &mut World, s: &Scene, c: u32, first: u32, length: u32, lent: u8) {
    let is_length = s.d.chance(50);
    for is_length in [is_length, !is_length] {
        world.put(Op::Portion { c, first, length, is_length, lent }, s.d);
    }
}

/// A first index and a length, around a count.
fn range(d: &Dice, count: u32, m: u32) -> (u32, u32) {
    let first = d.below(count + 1);
    let rest = count - first;
    match d.weighed(&[10, 20, 15, 10, 14, 12, 16]) {
        0 => (0, count),
        1 => (first, d.below(rest + 1)),
        2 => (first, rest),
        3 => (first, d.of(&[0, 1, rest.min(1)])),
        // past the count, in the buffer and past it
        4 => d.of(&[(first, rest + 1), (first, rest + 1), (count, 1), (0, m), (first, m), (first, rest + 2), (0, count + 2)]),
        5 => d.of(&[(count, 0), (count + 1, 0), (count + 1, 1), (m, 0), (m + 1, 0), (0, 0)]),
        _ => large(d, count),
    }
}

/// Numbers so large that in 16 or 32 bits, or signed, they would be in range.
fn large(d: &Dice, count: u32) -> (u32, u32) {
    let first = d.below(count + 1);
    let length = d.below(count - first + 1);
    let near_end = u32::MAX - d.below(count + 2);
    match d.below(9) {
        0 => (u32::MAX, d.of(&[0, 1, 2, u32::MAX])),
        1 => (d.of(&[0, 1, first, first]), u32::MAX),
        2 => (1 << 31, d.of(&[0, 1 << 31, (1 << 31) + count])),
        // the end in 32 bits is 0, the count, or one below it
        3 => (near_end, near_end.wrapping_neg()),
        4 => (near_end, near_end.wrapping_neg().wrapping_add(count)),
        5 => (first, first.wrapping_neg().wrapping_add(count.saturating_sub(1))),
        6 => (first + (1 + d.below(3) << 16), length),
        7 => (first, length + (1 + d.below(3) << 16)),
        _ => d.of(&[(u32::MAX - 3, 2), (first, 0x8000_0000), (first, u32::MAX - first), (0x8000_0000 + first, length)]),
    }
}
