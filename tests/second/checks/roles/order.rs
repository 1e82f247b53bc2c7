//! Examples of 13 among the other refusals, of what it leaves, and of what gives permissions.

use super::{access, number, READS, WRITES};
use crate::board::{Board, Portion, Reply, Setpoint};
use crate::checks::{Done, Small};
use crate::role::Role::{Candidate, Examiner, Watcher};
use crate::role::{Access, Role};

pub fn all() -> Done {
    [before(), after(), left(), left_registers(), given(), kept()].concat()
}

/// "checked once 1, 3 and the channel have passed"
fn before() -> Done {
    let mut t = Small::open_for(7, &[5], Access::NONE);
    let portion = Portion { c: 1, first: 0, length: 0, is_length: false };
    let short = [
        t.b.write(Candidate, 0x814, 1, &mut []), t.b.write(Watcher, 0x22, 1, &mut []), t.b.event(Watcher, 1, &mut []),
        t.b.reply(Candidate, 1, 3, &mut []).map(|_| ()), t.b.retired(Watcher, 1, &[], &[]).map(|_| ()),
        t.b.portion(Candidate, portion, [&[], &[]]).map(|_| ()), t.b.tick(Watcher, &[], |_, _| {}),
        t.b.set(Watcher, Setpoint { c: 1, user: 1, buffer: 1, index: 0, word: 1 }, &mut []),
    ];
    let is_unmapped = |t: &mut Small, address| {
        [Candidate, Watcher].iter().all(|role| t.write_as(*role, address, 1) == 3 && t.b.read(*role, address) == Err(3))
    };
    // the calls that name a channel by its number
    let no_channel = |t: &mut Small, c| {
        let calls = WRITES.iter().take(1).chain(&WRITES[2..]).chain(&READS[1..4]);
        calls.clone().all(|(_, ask)| ask(t, Candidate, c) == 2 && ask(t, Watcher, c) == 2)
    };
    vec![
        ("1 before 13", short.iter().all(|told| *told == Err(1))),
        ("3 before 13", [0x816, 0x2003, 0x20FF].iter().all(|&address| is_unmapped(&mut t, address))),
        ("3 of Main before 13", [0x20, 0x2C, 0x23].iter().all(|&address| is_unmapped(&mut t, address))),
        ("3 past the channels before 13", [0x2800, 0x2814, 0xFFFF_FFFE].iter().all(|&address| is_unmapped(&mut t, address))),
        ("2 of the channel before 13", [0, 5, 9, 255].iter().all(|&c| no_channel(&mut t, c))),
        ("2 of a portion's channel before 13", t.portion_as(Watcher, 5, 0, 0) == 2),
    ]
}

/// "before all else"
fn after() -> Done {
    // channel 1 runs, of N 4, with a download of nothing open; channel 2 has none
    let mut t = Small::open_for(7, &[5], access(0xCC, 0));
    t.write(0x808, 1);
    t.b.open_download(Examiner, 1).unwrap();
    let mut is = |ask: &dyn Fn(&mut Small, Role) -> u8, otherwise: u8| {
        [Candidate, Watcher].iter().all(|role| ask(&mut t, *role) == 13) && ask(&mut t, Examiner) == otherwise
    };
    vec![
        ("13 before 4 of a write", is(&|t, role| t.write_as(role, 0x802, 1), 4)),
        ("13 before 4 of a read", is(&|t, role| number(t.b.read(role, 0x806)), 4)),
        ("13 before 4 of Main", is(&|t, role| t.write_as(role, 0x28, 1), 4)),
        ("13 before 5", is(&|t, role| t.write_as(role, 0x80A, 4), 5)),
        ("13 before 10", is(&|t, role| t.write_as(role, 0x8FC, 1), 10)),
        ("13 before 2 of the user", is(&|t, role| t.set(role, 1, 9, 1, 0), 2)),
        ("13 before 2 of the buffer", is(&|t, role| t.set(role, 1, 1, 3, 0), 2)),
        ("13 before 2 of the index", is(&|t, role| t.set(role, 1, 1, 1, 4), 2)),
        ("13 before 6", is(&|t, role| t.set(role, 1, 1, 1, 0), 6)),
        ("13 before 7", is(&|t, role| t.reply_as(role, 1, 2), 7)),
        ("13 before 12", is(&|t, role| t.portion_as(role, 2, 0, 0), 12)),
        ("13 before 2 of the range", is(&|t, role| t.portion_as(role, 1, 1, 0), 2)),
        ("13 before 2 of a user change", is(&|t, role| number(t.b.change_user(role, 9)), 2)),
    ]
}

/// Document 01: "A refusal returns its number alone"; nothing changes.
fn left() -> Done {
    let mut t = Small::open_for(7, &[5], Access::NONE);
    t.write(0x808, 1);
    let refused = [
        number(t.b.disarm(Candidate, 1)), t.write_as(Watcher, 0x806, 1), t.write_as(Candidate, 0x808, 4),
        number(t.b.change_user(Candidate, 2)), t.event_as(Watcher, 1), t.set(Candidate, 1, 1, 1, 0), number(t.tick(Watcher)),
    ];
    let sent = t.sends(1, 10);
    let reply = t.b.reply(Watcher, 1, 3, &mut t.r);
    let kept: Vec<Reply> = (0..7).map(|data| t.reply(data)).collect();
    vec![
        ("what is refused 13", refused == [13; 7] && reply == Err(13)),
        ("is not done", sent == [(10, 5)] && t.b.read(Examiner, 0x28) == Ok(0x0800)),
        ("a refused reply takes no place", kept[..6] == [Reply::Kept; 6] && kept[6] == Reply::Unasked),
        ("a refused download is not open", t.b.open_download(Candidate, 1) == Err(13) && t.portion_as(Examiner, 1, 0, 0) == 12),
    ]
}

/// The same of registers, and of a channel that is not armed.
fn left_registers() -> Done {
    let mut t = Small::open_for(7, &[5], access(0xEE, 0xEE));
    t.b.disarm(Examiner, 1).unwrap();
    t.event_as(Examiner, 1);
    let refused = [
        number(t.b.arm(Candidate, 1)), t.write_as(Watcher, 0x814, 7), t.write_as(Candidate, 0x22, 7),
        t.write_as(Candidate, 0x830, 1), number(t.b.read(Watcher, 0x28)),
    ];
    t.write(0x808, 1);
    let sent = t.sends(1, 10);
    t.group_end();
    let read = [0x814, 0x22, 0x80E, 0x28].map(|address| t.b.read(Examiner, address).unwrap());
    vec![
        ("arming and registers refused 13", refused == [13; 5]),
        ("a channel that is not armed", sent.is_empty()),
        // Frame ID 0, Level 0, readback buffer 2 active and no switch, an event came
        ("registers as they were", read == [0, 0, 0x100, 0x0808]),
    ]
}

/// What the candidate and the watcher may do on channel 1: read 0E, and write 14.
fn may(b: &mut Board) -> Vec<u8> {
    let mut r = vec![0; 8 * b.m as usize];
    [Candidate, Watcher].map(|role| [number(b.read(role, 0x80E)), number(b.write(role, 0x814, 0x15, &mut r))]).concat()
}

/// "The opening gives candidate and watcher a read right and a write right for each channel."
fn given() -> Done {
    let opened = |access| may(&mut Board::open(4, 7, 256, 56, access).0);
    let (mut closed, refused) = Board::open(0, 7, 0, 56, access(0x10, 0xEF));
    vec![
        ("no permission", opened(Access::NONE) == [13, 13, 13, 13]),
        ("all permissions", opened(access(0xFF, 0xFF)) == [0, 0, 0, 0]),
        ("those of another channel", opened(access(0xEE, 0x22)) == [13, 13, 13, 13]),
        ("one each", opened(access(0x01, 0x10)) == [0, 13, 13, 0]),
        ("one each, the other way", opened(access(0x10, 0x01)) == [13, 0, 0, 13]),
        ("a refused opening's", refused == Err(1) && may(&mut closed) == [13, 0, 0, 13]),
    ]
}

/// Nothing but another opening changes permissions.
fn kept() -> Done {
    let after = |acts: fn(&mut Small)| {
        let mut t = Small::open_for(7, &[5], access(0x01, 0x10));
        acts(&mut t);
        may(&mut t.b) == [0, 13, 13, 0]
    };
    vec![
        ("kept over a reset", after(|t| t.write(0x806, 1))),
        ("kept over Group End", after(|t| t.group_end())),
        ("kept over an event", after(|t| t.b.event(Examiner, 1, &mut t.r).unwrap())),
        ("kept over a user change", after(|t| t.b.change_user(Examiner, 2).unwrap())),
        ("kept over disarm and arm", after(|t| {
            t.b.disarm(Examiner, 1).unwrap();
            t.b.arm(Examiner, 1).unwrap();
        })),
        ("kept over a function", after(|t| {
            t.write(0x808, 1);
            t.sends(1, 50);
        })),
    ]
}
