//! Acts around tags (document 02, request 6): a tag in every state of a channel, what may come between it and the send
//! that uses it, and replies to that send and to the one after it.

mod between;

use self::between::between;
use super::acts::{event_for, retired, Scene};
use super::commands::group_end;
use super::missing::send;
use super::story::{delay, reply, BASE};
use super::world::{Op, World};
use crate::role::Role::Examiner;

/// Tags, and the sends that use them or would.
pub fn tag(world: &mut World, s: &Scene) {
    let d = s.d;
    if d.chance(8) {
        return like_end_word(world, s);
    }
    for _ in 0..1 + d.below(3) {
        before(world, s);
        ask(world, s);
        for _ in 0..d.of(&[0, 0, 0, 1, 1, 2]) {
            between(world, s);
        }
        if !used(world, s) {
            break;
        }
        if d.chance(70) {
            ended(world, s);
        }
    }
    if d.chance(35) {
        world.put(group_end(world, s), d);
    }
    if world.is_script() {
        retired(world, s);
    }
}

/// A tag, now and then with what else one event or command does; or none, its register not active or the call refused.
fn ask(world: &mut World, s: &Scene) {
    let d = s.d;
    let pause = s.now(world).pause;
    let op = match d.weighed(&[40, if pause > 0 { 30 } else { 12 }, 6, 4, 45]) {
        0 => event_for(world, s, 0x2C),
        1 => {
            let resume = 0x20 + 2 * pause.min(4);
            let code = same_code(world, s, d.of(&[0x20, 0x22, 0x28, 0x2A, 0x2A, 0x2A, resume, resume, resume, resume]));
            world.put(Op::Write(s.at() + 0x2C, 0x100 | code as u16), d);
            Op::Event(code)
        }
        2 => {
            world.put(Op::Write(s.at() + 0x2C, d.of(&[0, 0x200, 0xFE00]) | d.of(&s.t.codes) as u16), d);
            Op::Event(same_code(world, s, 0x2C))
        }
        3 => {
            world.put(Op::Write(s.at() + 0x2C, 0xFF00 | d.of(&s.t.codes) as u16), d);
            Op::Event(same_code(world, s, 0x2C))
        }
        _ if pause == 5 && d.chance(40) => Op::Write(s.at() + 8, 0x0A),
        _ => Op::Write(s.at() + 8, d.of(&[8, 8, 8, 8, 8, 9, 0x0A, 0x0C, 0x0C, 0x0D, 0x0F, 0xFFF8])),
    };
    if world.is_script() && d.chance(5) {
        world.put_refused(op, d);
    } else {
        world.put(op, d);
    }
}

/// The code in an event register, active or not.
fn same_code(world: &World, s: &Scene, offset: u32) -> u8 {
    world.board().clone().read(Examiner, s.at() + offset).unwrap_or(0) as u8
}

/// The channel brought into a state, or left in the one that it is in.
fn before(world: &mut World, s: &Scene) {
    let d = s.d;
    let p = s.now(world);
    match d.weighed(&[40, 10, 16, 18, if p.pause > 0 { 40 } else { 0 }, if p.pause > 0 { 0 } else { 20 }, 20]) {
        0 => {}
        1 => world.put(Op::Disarm(s.c), d),
        2 => {
            world.put(Op::Disarm(s.c), d);
            world.put(Op::Arm(s.c), d);
        }
        // in the ticks before a first word
        3 => {
            if d.chance(60) {
                delay(world, d, s.t, s.c, 0, s.user);
                world.put(event_for(world, s, 0x20), d);
            } else {
                world.put(Op::Write(s.at() + 8, 1), d);
            }
            some_ticks(world, s);
        }
        4 => resume(world, s),
        5 => {
            load(world, s, s.user, &[1 << (16 + d.of(&[0, 1, 2, 3, 4, 4, 4, 4])), 1, 2]);
            send(world, s);
        }
        _ => {
            send(world, s);
            replies(world, s, 2);
        }
    }
}

/// A function of these words, each with data, on a channel that is then armed and idle.
pub fn load(world: &mut World, s: &Scene, user: u32, words: &[u32]) {
    let d = s.d;
    let buffer = 1 + (s.now(world).active >> (user - 1) & 1) as u32;
    world.put(Op::User(user), d);
    world.put(Op::Disarm(s.c), d);
    for (index, word) in words.iter().enumerate() {
        world.put(Op::Set { c: s.c, user, buffer, index: index as u32, word: word | d.below(65_536) }, d);
    }
    world.put(Op::Arm(s.c), d);
}

/// Resume of the pause that the channel is in, often by a code that does nothing else, and some of the ticks after it.
pub fn resume(world: &mut World, s: &Scene) {
    let (d, k) = (s.d, s.now(world).pause);
    match k {
        0 => {}
        5 => world.put(Op::Write(s.at() + 8, 2), d),
        _ => {
            let low = BASE * s.c + 0x42 + 0x20 * k + 4 * (s.user - 1);
            world.put(Op::Write(low, d.of(&[0, 12, 25, 40, 60])), d);
            if d.chance(70) {
                world.put(Op::Write(s.at() + 0x20 + 2 * k, 0x1E0 + k as u16), d);
            }
            world.put(event_for(world, s, 0x20 + 2 * k), d);
        }
    }
    if d.chance(60) {
        some_ticks(world, s);
    }
}

/// Ticks that do not reach the channel's next send.
fn some_ticks(world: &mut World, s: &Scene) {
    let wait = s.now(world).wait as u32;
    if (2..=4_000).contains(&wait) {
        world.put(Op::Ticks(if s.d.chance(40) { wait - 1 } else { 1 + s.d.below(wait - 1) }), s.d);
    }
}

/// Replies, at most so many, now and then with ID 0 and data 0.
fn replies(world: &mut World, s: &Scene, most: u32) {
    for _ in 0..s.d.below(most + 1) {
        let reply = if s.d.chance(30) { 3 } else { reply(s.d) };
        world.put(Op::Reply(s.c, reply), s.d);
    }
}

/// The next send, or several in one record of ticks, with replies after it and perhaps a tag or a Resume before them.
fn used(world: &mut World, s: &Scene) -> bool {
    let d = s.d;
    let p = s.now(world);
    if !p.idle && p.wait <= 100 && d.chance(15) {
        world.put(Op::Ticks(p.wait as u32 + d.of(&[10, 20, 55, 100, 130])), d);
    } else if !send(world, s) {
        return false;
    }
    if d.chance(12) {
        some_ticks(world, s);
    }
    if d.chance(25) {
        ask(world, s);
    }
    if s.now(world).pause > 0 && d.chance(30) {
        resume(world, s);
    }
    if d.chance(70) {
        world.put(Op::Reply(s.c, reply(d)), d);
    }
    replies(world, s, d.of(&[1, 1, 2, 6]));
    true
}

/// The send after it: the function's next, or that of a new Start.
fn ended(world: &mut World, s: &Scene) {
    if s.d.chance(15) {
        world.put(Op::Write(s.at() + 8, 1), s.d);
        replies(world, s, 2);
    }
    if s.d.chance(40) {
        resume(world, s);
    }
    if send(world, s) {
        replies(world, s, 2);
    }
}

/// "User 1, ID 0, data 0, tagged, may equal the end word": of three plain words the second or the third is tagged, after
/// replies of any kind or none, and before more of them or none. With N 3 the third is last.
fn like_end_word(world: &mut World, s: &Scene) {
    let d = s.d;
    load(world, s, 1, &[0, 0, 0]);
    world.put(Op::Write(s.at() + 8, 5), d);
    for _ in 0..1 + d.below(2) {
        send(world, s);
        replies(world, s, d.below(2));
    }
    world.put(Op::Write(s.at() + 8, 8), d);
    send(world, s);
    for _ in 0..1 + d.below(3) {
        world.put(Op::Reply(s.c, 3), d);
    }
    if d.chance(40) {
        send(world, s);
        replies(world, s, 2);
    }
    world.put(group_end(world, s), d);
    if world.is_script() {
        world.put(Op::Retired { c: s.c, length: false, lent: 0 }, d);
    }
}
