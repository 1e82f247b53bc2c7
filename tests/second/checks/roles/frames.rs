//! Examples of ticks: "a tick's answer shows a seat only channels it may read", and "a frame that a tick doesn't show still
//! counts as sent".

use super::access;
use crate::board::Reply;
use crate::checks::{Done, Small};
use crate::frame::frame;
use crate::role::Role::{Candidate, Examiner, Watcher};

pub fn all() -> Done {
    [shown(), counted(), commands(), events()].concat()
}

/// Channel 1 sends 5 and then 6, and channels 2 to 4 send 0, first on the tenth tick.
fn four(candidate: u8) -> Small {
    let mut t = Small::open_for(7, &[5, 6], access(candidate, 0xFF));
    for c in 1..=4 {
        t.write(0x800 * c + 0x0A, 3);
        t.write(0x800 * c + 0x14, 0x15);
        t.b.arm(Examiner, c).unwrap();
        t.write(0x800 * c + 8, 1);
    }
    t
}

/// The tenth tick of them, by the candidate.
fn tenth(t: &mut Small) -> [Option<u64>; 4] {
    let before: Vec<_> = (1..10).map(|_| t.tick(Candidate)).collect();
    assert_eq!(before, [Ok([None; 4]); 9]);
    t.tick(Candidate).unwrap()
}

fn shown() -> Done {
    let (one, zero) = (Some(frame(0x15, 5, 0)), Some(frame(0x15, 0, 0)));
    let mut stood = four(0xFF);
    let by_watcher: Vec<_> = (0..9).map(|_| stood.tick(Watcher)).collect();
    vec![
        ("all frames", tenth(&mut four(0x0F)) == [one, zero, zero, zero]),
        ("channel 1's alone", tenth(&mut four(0x01)) == [one, None, None, None]),
        ("all but channel 1's", tenth(&mut four(0xFE)) == [None, zero, zero, zero]),
        ("channel 4's alone", tenth(&mut four(0x18)) == [None, None, None, zero]),
        ("those of channels 2 and 3", tenth(&mut four(0x96)) == [None, zero, zero, None]),
        ("none with the write permissions alone", tenth(&mut four(0xF0)) == [None; 4]),
        ("no tick of a watcher's", by_watcher == [Err(13); 9] && tenth(&mut stood) == [one, zero, zero, zero]),
    ]
}

/// The candidate may not read channel 1.
fn counted() -> Done {
    let sent = || {
        let mut t = four(0xFE);
        tenth(&mut t);
        t
    };
    let mut next = sent();
    let mut ended = sent();
    ended.group_end();
    let mut short = sent();
    (0..10).for_each(|_| _ = short.tick(Candidate));
    let mut flagged = sent();
    flagged.reply(7);
    // N is 4: the fourth word, on tick 40, is last
    let mut last = four(0xFE);
    last.write(0x800, 0x4000);
    tenth(&mut last);
    (0..30).for_each(|_| _ = last.tick(Candidate));
    vec![
        ("a reply is due", sent().reply(7) == Reply::Kept),
        ("and describes the first word", flagged.r[0] == 0x8015_0007),
        ("the next word follows", next.sends(11, 20) == [(20, 6)]),
        ("the setpoint count is 1", ended.b.read(Examiner, 0x812) == Ok(1)),
        ("six are missing", short.b.read(Examiner, 0x80C) == Ok(6)),
        ("EOF is latched, and channel 1's bit of Main", last.b.read(Examiner, 0x2A) == Ok(0x0810)),
    ]
}

/// A command frame of ID 15h and data 0 on channel 1, which is armed and idle.
fn commands() -> Done {
    let asked = |candidate: u8| {
        let mut t = Small::open_for(7, &[5], access(candidate, 0));
        t.write(0x8E0, 0x15);
        t.write(0x8FC, 1);
        t
    };
    let (mut seen, mut hidden) = (asked(0x01), asked(0xFE));
    let is_hidden = hidden.tick(Candidate) == Ok([None; 4]);
    let is_gone = hidden.tick(Examiner) == Ok([None; 4]);
    let is_kept = hidden.b.reply(Examiner, 1, frame(0x15, 9, 0), &mut hidden.r) == Ok(Reply::Kept);
    vec![
        ("a command frame", seen.tick(Candidate) == Ok([Some(frame(0x15, 0, 0)), None, None, None])),
        ("one that is not shown leaves once", is_hidden && is_gone),
        ("and takes replies", is_kept && hidden.b.read(Examiner, 0x8E6) == Ok(9)),
    ]
}

/// An event of a candidate who has no permission comes to every channel.
fn events() -> Done {
    let mut t = Small::open_for(7, &[5], access(0, 0xFF));
    t.write(0x820, 0x101);
    let told = t.event_as(Candidate, 1);
    vec![("an event starts a channel that the candidate may not write", told == 0 && t.sends(1, 10) == [(10, 5)])]
}
