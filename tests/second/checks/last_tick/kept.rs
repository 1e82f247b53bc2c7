//! Examples of what comes after a tick: "The condition, save for no tick yet, is that of the state just before that tick."

use crate::checks::{Done, Small};
use crate::last_tick::LastTick::{self, *};
use crate::role::Role::{Examiner, Watcher};

pub fn all() -> Done {
    [stays(), resets(), refused()].concat()
}

/// Channel 1 of which this is told, and another is told after one more tick where it can be.
fn posed(told: LastTick) -> Small {
    let mut t = match told {
        ResumeGap => Small::resume(0, 5),
        _ => Small::new(&[0x0001_0005, 6]),
    };
    match told {
        NoTick => return t,
        Disarmed => t.b.disarm(Examiner, 1).unwrap(),
        Sent | BetweenEdges | StartGap => t.start(0),
        StartDelay => t.start(9),
        _ => {}
    }
    let count = match told {
        Sent => 10,
        BetweenEdges => 19,
        _ => 9,
    };
    t.each_tick(count);
    t
}

const ALL: [LastTick; 8] = crate::last_tick::ALL;

/// Whether all is told as before after this, of a channel in each state.
fn is_kept(act: fn(&mut Small)) -> bool {
    ALL.iter().all(|told| {
        let mut t = posed(*told);
        let before = t.last(1);
        act(&mut t);
        before == *told && t.last(1) == *told
    })
}

fn stays() -> Done {
    vec![
        ("kept over disarm", is_kept(|t| t.b.disarm(Examiner, 1).unwrap())),
        ("kept over disarm and arm", is_kept(|t| {
            t.b.disarm(Examiner, 1).unwrap();
            t.b.arm(Examiner, 1).unwrap();
        })),
        ("kept over Start by command", is_kept(|t| t.write(0x808, 1))),
        ("kept over Start by event", is_kept(|t| t.start(30))),
        ("kept over Resume", is_kept(|t| {
            t.write(0x822, 0x102);
            t.event(2);
        })),
        ("kept over Group End", is_kept(Small::group_end)),
        ("kept over a user change", is_kept(|t| t.b.change_user(Examiner, 2).unwrap())),
        ("kept over registers written", is_kept(|t| {
            t.write(0x80A, 0);
            t.delay(0, 77);
            t.delay(1, 77);
        })),
        ("kept over a command frame that is asked for", is_kept(|t| {
            t.write(0x8FC, 2);
            t.group_end();
        })),
        ("kept over a reset of another channel", is_kept(|t| t.write(0x1006, 1))),
        ("kept over a reset without D0", is_kept(|t| t.write(0x806, 0xFFFE))),
    ]
}

/// "Reset returns the channel to no tick yet."
fn resets() -> Done {
    let after = |told: &LastTick| {
        let mut t = posed(*told);
        t.write(0x806, 1);
        [t.last(1), t.last(2), t.tick_once()]
    };
    let others = |told: &LastTick| if *told == NoTick { NoTick } else { Disarmed };
    vec![
        ("a reset", ALL.iter().all(|told| after(told) == [NoTick, others(told), Disarmed])),
    ]
}

/// Refused ticks are no ticks.
fn refused() -> Done {
    vec![
        ("kept over a tick refused 1", is_kept(|t| assert_eq!(t.b.tick(Examiner, &[], |_, _| {}), Err(1)))),
        ("kept over a tick refused 13", is_kept(|t| assert_eq!(t.tick(Watcher), Err(13)))),
        ("kept over a reset refused 1", is_kept(|t| assert_eq!(t.b.write(Examiner, 0x806, 1, &mut []), Err(1)))),
        ("kept over a reset refused 13", is_kept(|t| assert_eq!(t.b.write(Watcher, 0x806, 1, &mut t.r), Err(13)))),
    ]
}
