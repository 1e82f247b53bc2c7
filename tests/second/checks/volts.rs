//! Examples of readings in volts: document 02, request 7, whose quotations these are.
//!
//! Readings are told as CALLS.md prints them, voltages times 32,768: a reply with data n reads 10 × n. LOST is that of a
//! channel with no send since idle, and of a send with no more than two replies.

use super::{Done, Small};
use crate::answer::Answer;
use crate::board::Board;
use crate::frame::frame;
use crate::role::{Access, Role::Examiner};
use crate::volts::{voltage, Reading};

const LOST: &str = "volts lost lost lost lost";
const SIX: &str = "volts 30 40 50 60";

impl Small {
    /// A Start by command, and the 10 ticks to its first word.
    fn send(&mut self) {
        self.write(0x808, 1);
        self.sends(1, 10);
    }
    /// Replies with these data.
    fn replies(&mut self, data: &[usize]) {
        for data in data {
            self.reply(*data);
        }
    }
    /// A reply with a wrong CRC.
    fn wrong(&mut self, data: u16) {
        self.b.reply(Examiner, 1, frame(0x15, data, 0) ^ 4, &mut self.r).unwrap();
    }
    /// What a voltages call answers.
    fn told(&mut self) -> String {
        self.b.voltages(Examiner, 1).map_or_else(Answer::Refused, Answer::Volts).to_string()
    }
}

/// Channel 1 of depth M 64 with these words, after the first of them and six replies: data 1 to 6.
fn six(words: &[u32]) -> Small {
    let mut t = Small::of_depth(64, words);
    t.send();
    t.replies(&[1, 2, 3, 4, 5, 6]);
    t
}

pub fn all() -> Done {
    [values(), places(), lost(), sends(), idled(), left(), no_place(), channels()].concat()
}

/// "The data is a signed code in two's complement, and the voltage is exactly code × 10 / 32,768. 8000h is −10, 0 is 0,
/// and 7FFFh is 9.99969482421875."
fn values() -> Done {
    let is_exact = |data: u16| {
        let (volts, times_10) = (voltage(data), data as i16 as i32 * 10);
        volts * 32_768.0 == times_10 as f64 && Reading::Volts(volts).to_string() == times_10.to_string()
    };
    vec![
        ("8000h is -10", voltage(0x8000) == -10.0),
        ("0 is 0", voltage(0) == 0.0),
        ("7FFFh is 9.99969482421875", voltage(0x7FFF) == 9.999_694_824_218_75),
        ("every code is exact", (0..=0xFFFF).all(is_exact)),
    ]
}

/// "A send's third to sixth replies are its ADC words."
fn places() -> Done {
    let after = |count: usize| {
        let mut t = Small::of_depth(64, &[5]);
        t.send();
        t.replies(&[0x8000, 0x7FFF, 0x8000, 0xFFFF, 0, 0x7FFF][..count]);
        t.told()
    };
    let mut damaged = Small::of_depth(64, &[5]);
    damaged.send();
    damaged.wrong(1);
    damaged.replies(&[2, 3]);
    damaged.wrong(4);
    damaged.replies(&[5]);
    damaged.wrong(6);
    vec![
        ("no reply", after(0) == LOST),
        ("two replies", after(2) == LOST),
        ("three replies", after(3) == "volts -327680 lost lost lost"),
        ("four replies", after(4) == "volts -327680 -10 lost lost"),
        ("five replies", after(5) == "volts -327680 -10 0 lost"),
        ("six replies", after(6) == "volts -327680 -10 0 327670"),
        ("damaged", damaged.told() == "volts 30 damaged 50 damaged"),
    ]
}

/// "A reading is lost when its reply wasn't stored, with a wrong CRC or not." A buffer of depth M takes M − 1 (request 3).
fn lost() -> Done {
    let of_depth = |m: u32| {
        let mut t = Small::of_depth(m, &[5]);
        t.send();
        t.replies(&[1, 2, 3, 4, 5]);
        t.wrong(6);
        t.told()
    };
    // of the seven places the first send has four, so the next has three
    let mut second = Small::of_depth(8, &[5, 6]);
    second.send();
    second.replies(&[1, 2, 3, 4]);
    second.sends(1, 10);
    second.replies(&[5, 6, 7, 8, 9]);
    vec![
        ("depth 7, none is lost", of_depth(7) == "volts 30 40 50 damaged"),
        ("depth 6, a wrong CRC is lost", of_depth(6) == "volts 30 40 50 lost"),
        ("depth 5", of_depth(5) == "volts 30 40 lost lost"),
        ("depth 4", of_depth(4) == "volts 30 lost lost lost"),
        ("depth 3, and 1", [of_depth(3), of_depth(1)] == [LOST; 2]),
        ("lost from the fourth reply of a second send", second.told() == "volts 70 lost lost lost"),
    ]
}

/// "describes its last setpoint send": repeats are sends.
fn sends() -> Done {
    let after_next = |words: &[u32]| {
        let mut t = six(words);
        t.sends(1, 9);
        let before = t.told();
        t.sends(10, 10);
        let after = t.told();
        t.replies(&[7, 8, 9]);
        [before, after, t.told()] == [SIX, LOST, "volts 90 lost lost lost"]
    };
    let mut restarted = Small::of_depth(64, &[5, 6]);
    restarted.send();
    restarted.replies(&[1, 2, 3]);
    restarted.write(0x808, 1);
    restarted.sends(1, 9);
    restarted.replies(&[4]);
    let in_delay = restarted.told();
    restarted.sends(10, 10);
    vec![
        ("the next word", after_next(&[5, 6])),
        ("a pause word repeats", after_next(&[0x0001_0005])),
        ("the last word repeats", after_next(&[0x8000_0005])),
        ("a restart, and a reply in its delay", in_delay == "volts 30 40 lost lost"),
        ("the first word of a restart", restarted.told() == LOST),
    ]
}

/// "its last setpoint send since idle; with none, all four are lost"
fn idled() -> Done {
    let after = |acts: fn(&mut Small)| {
        let mut t = six(&[5]);
        let before = t.told();
        acts(&mut t);
        let idle = t.told();
        t.write(0x80A, 3);
        t.b.arm(Examiner, 1).unwrap();
        t.write(0x808, 1);
        [before, idle, t.told()] == [SIX, LOST, LOST]
    };
    vec![
        ("nothing yet", Small::new(&[5]).told() == LOST),
        ("Group End by command", after(|t| t.write(0x808, 4))),
        ("Group End by event", after(|t| {
            t.write(0x82A, 0x1EE);
            t.b.event(Examiner, 0xEE, &mut t.r).unwrap();
        })),
        ("Group End and Start", after(|t| t.write(0x808, 5))),
        ("disarm", after(|t| t.b.disarm(Examiner, 1).unwrap())),
        ("a user change", after(|t| t.b.change_user(Examiner, 2).unwrap())),
        ("a user change and back", after(|t| {
            t.b.change_user(Examiner, 2).unwrap();
            t.b.change_user(Examiner, 1).unwrap();
        })),
        ("reset", after(|t| t.write(0x806, 1))),
    ]
}

/// What is no send and idles nothing leaves the readings.
fn left() -> Done {
    let after = |acts: fn(&mut Small)| {
        let mut t = six(&[0x0010_0005]);
        acts(&mut t);
        t.told() == SIX
    };
    vec![
        ("asked again", after(|t| drop(t.told()))),
        ("the seventh reply", after(|t| t.replies(&[7]))),
        ("the seventh reply with a wrong CRC", after(|t| t.wrong(6))),
        ("the same user", after(|t| t.b.change_user(Examiner, 1).unwrap())),
        ("a user that there is not", after(|t| _ = t.b.change_user(Examiner, 9))),
        ("arming again", after(|t| t.b.arm(Examiner, 1).unwrap())),
        ("a tag", after(|t| t.write(0x808, 8))),
        ("Resume", after(|t| t.write(0x808, 2))),
        ("a command frame that waits", after(|t| t.write(0x8FC, 2))),
        ("a refused Group End", after(|t| _ = t.b.write(Examiner, 0x808, 4, &mut []))),
        ("Reset without D0", after(|t| t.write(0x806, 2))),
        ("a read of 02", after(|t| _ = t.b.read(Examiner, 0x802))),
        ("a read of 0C", after(|t| _ = t.b.read(Examiner, 0x80C))),
        ("a retired call", after(|t| drop(t.part()))),
    ]
}

/// Replies that are neither kept nor lost for the send have no position after it.
fn no_place() -> Done {
    let mut refused = Small::of_depth(64, &[5]);
    refused.send();
    refused.replies(&[1, 2]);
    let bad = [refused.b.reply(Examiner, 1, 2, &mut refused.r), refused.b.reply(Examiner, 1, frame(0x15, 9, 0), &mut [])];
    refused.replies(&[3]);
    let mut unasked = Small::of_depth(64, &[5]);
    unasked.replies(&[7, 7, 7]);
    let idle = unasked.told();
    unasked.write(0x808, 1);
    unasked.replies(&[8, 8, 8]);
    let in_delay = unasked.told();
    unasked.sends(1, 10);
    unasked.replies(&[1, 2, 3]);
    // request 1: "Up to six replies after it go to E4–FA"
    let mut command = Small::of_depth(64, &[5]);
    command.write(0x8FC, 1);
    command.sends(1, 1);
    command.replies(&[7, 7, 7, 7]);
    let of_command = command.told();
    command.send();
    command.replies(&[1, 2, 3]);
    let third = "volts 30 lost lost lost";
    vec![
        ("refused replies", bad == [Err(7), Err(1)] && refused.told() == third),
        ("unasked replies", [idle, in_delay, unasked.told()] == [LOST, LOST, third]),
        ("a command frame's replies", [of_command, command.told()] == [LOST, third]),
    ]
}

/// "The call names a channel".
fn channels() -> Done {
    let mut t = six(&[5]);
    let told = |t: &mut Small, c: u32| t.b.voltages(Examiner, c).map_or_else(Answer::Refused, Answer::Volts).to_string();
    let before = [told(&mut t, 1), told(&mut t, 2)];
    t.b.arm(Examiner, 2).unwrap();
    t.write(0x100A, 3);
    t.write(0x1008, 1);
    t.sends(1, 9);
    t.tick(Examiner).unwrap();
    for data in [0, 0, 0x8000] {
        t.b.reply(Examiner, 2, frame(0, data, 0), &mut t.r).unwrap();
    }
    let (mut closed, opened) = Board::open(0, 0, 0, 0, Access::NONE);
    vec![
        ("channel 2, with no send", before == [SIX, LOST]),
        ("channel 2", told(&mut t, 2) == "volts -327680 lost lost lost"),
        ("no channel", [0, 5, 255].iter().all(|&c| t.b.voltages(Examiner, c) == Err(2))),
        ("a closed board", opened == Err(1) && closed.voltages(Examiner, 4) == Ok([Reading::Lost; 4])),
        ("no channel of it", closed.voltages(Examiner, 5) == Err(2)),
    ]
}
