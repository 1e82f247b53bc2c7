//! Acts around the end word (document 02, request 3): groups of no readback, of some, of as many as a buffer takes and
//! of more, what may come before their Group End, and groups in buffers that had others before.

use super::acts::{retired, Scene};
use super::commands::{command_with_full_buffer, group_end};
use super::missing::send;
use super::story::reply;
use super::world::{Op, World};

/// Groups one after the other.
pub fn end_word(world: &mut World, s: &Scene) {
    for _ in 0..s.d.of(&[1, 1, 2, 3]) {
        let wanted = size(world, s);
        store(world, s, wanted);
        lose(world, s);
        before_group_end(world, s);
        // now and then several in a row
        for _ in 0..s.d.of(&[1, 1, 1, 2, 3]) {
            world.put(group_end(world, s), s.d);
            if world.is_script() && s.d.chance(60) {
                retired(world, s);
            }
        }
    }
}

/// How many readbacks a group gets. Deep buffers are filled only in the stories that fill them.
pub fn size(world: &World, s: &Scene) -> usize {
    let most = world.board().capacity();
    let few = (s.d.below(8) as usize).min(most);
    if most > 16 && !s.t.fills {
        return few;
    }
    s.d.of(&[0, few, most.saturating_sub(1), most.saturating_sub(1), most, most, most])
}

/// Replies until the active buffer holds so many readbacks; fewer if its channel's next send is far off.
pub fn store(world: &mut World, s: &Scene, wanted: usize) {
    for _ in 0..100 {
        let p = s.now(world);
        if p.stored >= wanted || world.records() > 6_000 {
            return;
        }
        if !is_reply_due(world, s) && !send(world, s) {
            return;
        }
        world.put(Op::Reply(s.c, reply(s.d)), s.d);
    }
}

fn is_reply_due(world: &World, s: &Scene) -> bool {
    s.now(world).replies.is_some_and(|r| r < 6)
}

/// Replies until the active buffer is full, and perhaps more.
pub fn fill(world: &mut World, s: &Scene) {
    store(world, s, world.board().capacity());
    lose(world, s);
}

fn is_full(world: &World, s: &Scene) -> bool {
    s.now(world).stored >= world.board().capacity()
}

/// Replies to a channel whose buffer is full, now and then for a tagged send: none, or up to six more.
fn lose(world: &mut World, s: &Scene) {
    let count = s.d.of(&[0, 0, 1, 1, 2, 6]);
    if count > 0 && is_full(world, s) && s.d.chance(30) {
        world.put(Op::Write(s.at() + 8, 8), s.d);
        send(world, s);
    }
    if count == 0 || !is_full(world, s) || (!is_reply_due(world, s) && !send(world, s)) {
        return;
    }
    for _ in 0..count {
        world.put(Op::Reply(s.c, reply(s.d)), s.d);
    }
}

/// What may come between the last readback and Group End: mostly nothing, but often something if the buffer is full.
fn before_group_end(world: &mut World, s: &Scene) {
    let d = s.d;
    let nothing = if is_full(world, s) { 40 } else { 120 };
    match d.weighed(&[nothing, 16, 8, 6, 16, 8]) {
        0 => {}
        1 => world.put(Op::Disarm(s.c), d),
        2 => {
            world.put(Op::User(s.user % 8 + 1), d);
            world.put(Op::User(s.user), d);
        }
        3 if is_full(world, s) => command_with_full_buffer(world, s),
        3 => {}
        4 => reset(world, s),
        _ => {
            send(world, s);
        }
    }
}

/// A reset, and half the time a readback after it.
fn reset(world: &mut World, s: &Scene) {
    let d = s.d;
    world.put(Op::Write(s.at() + 6, 1), d);
    if world.is_script() && d.chance(60) {
        retired(world, s);
    }
    world.put(Op::Write(s.at() + 0x0A, 3), d);
    if d.chance(50) {
        store(world, s, world.board().capacity().min(1));
    }
}
