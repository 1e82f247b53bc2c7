//! Examples of downloads that are open, or end, or are not open.

use super::{three, ONE, THREE, TWO};
use crate::board::Board;
use crate::checks::{Done, Small};
use crate::frame::frame;
use crate::role::{Access, Role::Examiner};

pub fn all() -> Done {
    [ended(), left(), none_open(), order(), boards(), channel_4()].concat()
}

/// "Group End or reset on that channel ends the download."
fn ended() -> Done {
    let after = |acts: fn(&mut Small)| {
        let mut t = three();
        let before = t.portion(0, 3);
        acts(&mut t);
        let said = [t.portion(0, 3), t.portion(0, 0), t.portion(0, 4), t.portion(4, 0)];
        before == Ok(vec![ONE, TWO, THREE]) && said == [Err(12), Err(12), Err(12), Err(12)]
    };
    vec![
        ("Group End by command ends it", after(|t| t.write(0x808, 4))),
        ("Group End by event ends it", after(|t| {
            t.write(0x82A, 0x1EE);
            t.b.event(Examiner, 0xEE, &mut t.r).unwrap();
        })),
        ("Group End and Start end it", after(|t| t.write(0x808, 5))),
        ("Group End of a disarmed channel ends it", after(|t| {
            t.b.disarm(Examiner, 1).unwrap();
            t.group_end();
        })),
        ("two Group Ends end it", after(|t| {
            t.group_end();
            t.group_end();
        })),
        ("reset ends it", after(|t| t.write(0x806, 1))),
        ("reset of a running channel ends it", after(|t| {
            t.write(0x808, 1);
            t.sends(1, 10);
            t.write(0x806, 0xFFFF);
        })),
    ]
}

/// "Other channels' Group Ends don't matter." Nor does what is no Group End or reset.
fn left() -> Done {
    let after = |acts: fn(&mut Small)| {
        let mut t = three();
        acts(&mut t);
        t.portion(0, 3) == Ok(vec![ONE, TWO, THREE]) && t.portion(0, 4) == Err(2)
    };
    vec![
        ("another channel's Group End by command", after(|t| t.write(0x1008, 4))),
        ("another channel's Group End by event", after(|t| {
            t.write(0x202A, 0x1EE);
            t.b.event(Examiner, 0xEE, &mut t.r).unwrap();
        })),
        ("another channel's reset", after(|t| t.write(0x1006, 1))),
        ("another channel's download", after(|t| _ = t.b.open_download(Examiner, 2))),
        ("no channel's download", after(|t| _ = t.b.open_download(Examiner, 9))),
        ("opening again", after(|t| _ = t.b.open_download(Examiner, 1))),
        ("a refused Group End", after(|t| _ = t.b.write(Examiner, 0x808, 4, &mut []))),
        ("a refused reset", after(|t| _ = t.b.write(Examiner, 0x806, 1, &mut []))),
        ("reset without D0", after(|t| t.write(0x806, 2))),
        ("an event of no meaning", after(|t| t.b.event(Examiner, 0xEE, &mut t.r).unwrap())),
        ("disarm", after(|t| t.b.disarm(Examiner, 1).unwrap())),
        ("arming again", after(|t| t.b.arm(Examiner, 1).unwrap())),
        ("a user change", after(|t| t.b.change_user(Examiner, 2).unwrap())),
        ("a command frame and its reply", after(|t| {
            t.write(0x8FC, 1);
            t.sends(1, 1);
            t.reply(7);
        })),
        ("a retired call", after(|t| drop(t.part()))),
        ("a portion refused 2", after(|t| _ = t.portion(9, 9))),
        ("ticks", after(|t| _ = t.sends(1, 100))),
    ]
}

/// 12: "a portion with no download open".
fn none_open() -> Done {
    let mut t = Small::new(&[5]);
    let at_first = [t.portion(0, 0), t.portion(0, 1)];
    t.retire(&[1, 2, 3]);
    let retired = [t.portion(0, 0), t.portion(0, 3), t.portion(9, 9)];
    let others = [t.b.open_download(Examiner, 2), t.b.open_download(Examiner, 9)];
    let beside = t.portion(0, 3);
    vec![
        ("none open at first", at_first == [Err(12), Err(12)]),
        ("none open of what retired", retired == [Err(12), Err(12), Err(12)]),
        ("one of channel 2, and none of channel 9", others == [Ok(0), Err(2)] && beside == Err(12)),
    ]
}

/// "checked after the channel and before the range"
fn order() -> Done {
    let mut t = three();
    let right = [0; 7];
    let wrong: [[&[u32]; 2]; 7] = [
        [&right[..6], &right], [&right, &right[..6]], [&[0; 8], &right], [&right, &[0; 8]], [&[], &[]], [&[], &right],
        [&right[..6], &[0; 8]],
    ];
    let is_1 = |t: &mut Small, c, first, length| wrong.iter().all(|lent| t.portion_of(c, first, length, *lent) == Err(1));
    vec![
        ("1 with one open", is_1(&mut t, 1, 0, 3) && is_1(&mut t, 1, 0, 0)),
        ("1 before 2 of the range", is_1(&mut t, 1, 9, 9)),
        ("1 before 12", is_1(&mut t, 2, 0, 0)),
        ("1 before 2 of the channel", is_1(&mut t, 5, 0, 3) && is_1(&mut t, 0, 9, 9)),
        ("2 of the channel", [0, 5, 9, 255].iter().all(|c| t.portion_of(*c, 0, 3, [&right, &right]) == Err(2))),
        ("12 before 2 of the range", t.portion_of(2, 9, 9, [&right, &right]) == Err(12)),
        ("2 of the range", t.portion_of(1, 9, 9, [&right, &right]) == Err(2)),
    ]
}

/// A closed board goes by the same rules; a new one has no download open.
fn boards() -> Done {
    let (closed, opened) = Board::open(0, 0, 0, 0, Access::NONE);
    let mut t = Small { b: closed, s: Vec::new(), r: Vec::new() };
    let before = [t.portion(0, 0), t.portion(0, 1)];
    let count = [t.b.open_download(Examiner, 4), t.b.open_download(Examiner, 1), t.b.open_download(Examiner, 5)];
    let after = [t.portion(0, 0), t.portion(0, 1), t.portion(1, 0), t.portion_of(1, 0, 0, [&[0], &[]])];
    t.group_end();
    let mut new = three();
    new.b = Board::open(4, 7, 256, 56, Access::NONE).0;
    vec![
        ("a closed board", opened == Err(1) && before == [Err(12), Err(12)] && count == [Ok(0), Ok(0), Err(2)]),
        ("its portions", after == [Ok(vec![]), Err(2), Err(2), Err(1)] && t.portion(0, 0) == Err(12)),
        ("a new board", new.portion(0, 0) == Err(12) && new.b.open_download(Examiner, 1) == Ok(0)),
    ]
}

/// The last words lent are those of channel 4.
fn channel_4() -> Done {
    let mut t = Small::new(&[5]);
    t.b.arm(Examiner, 4).unwrap();
    t.write(0x200A, 3);
    t.write(0x2008, 1);
    t.sends(1, 10);
    t.b.reply(Examiner, 4, frame(0x15, 2, 0), &mut t.r).unwrap();
    t.write(0x2008, 4);
    let readbacks = t.r.clone();
    let lent = [&readbacks[42..49], &readbacks[49..]];
    vec![
        ("channel 4 opened", t.b.open_download(Examiner, 4) == Ok(1)),
        ("channel 4's words", t.portion_of(4, 0, 1, lent) == Ok(vec![0x8015_0002])),
    ]
}
