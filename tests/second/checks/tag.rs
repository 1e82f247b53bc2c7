//! Examples of tagged readbacks: document 02, request 6, whose quotations these are.
//!
//! A kept word of ID 15h, data 1 is 00150001h; with it go D31 for a first word, D30 paused, D29 last, and D25 tagged.

use self::Act::{Arm, Command, Disarm, Event, Reply, Send, Ticks, User, Write, ZeroReply};
use super::{Done, Small};
use crate::board::{self, Setpoint};
use crate::role::Role::Examiner;

const FIRST: u32 = 1 << 31;
const PAUSED: u32 = 1 << 30;
const LAST: u32 = 1 << 29;
const TAGGED: u32 = 1 << 25;
const KEPT: u32 = 0x0015_0001;
const END_WORD: u32 = 0x0200_0000;

// Commands
const START: u16 = 1;
const RESUME: u16 = 2;
const GROUP_END: u16 = 4;
const TAG: u16 = 8;

/// A call on channel 1.
#[derive(Clone, Copy)]
enum Act {
    Command(u16),
    Event(u8),
    Write(u32, u16),
    Arm,
    Disarm,
    User(u32),
    Ticks(u64),
    /// Of ID 15h, data 1, kept.
    Reply,
    /// Of ID 0, data 0, kept.
    ZeroReply,
    /// 10 ticks, in which a period or a Start by command has one send, and a reply to it.
    Send,
}

impl Small {
    fn act(&mut self, act: Act) {
        match act {
            Command(bits) => self.write(0x808, bits),
            Event(code) => self.b.event(Examiner, code, &mut self.r).unwrap(),
            Write(address, value) => self.write(address, value),
            Arm => self.b.arm(Examiner, 1).unwrap(),
            Disarm => self.b.disarm(Examiner, 1).unwrap(),
            User(user) => self.b.change_user(Examiner, user).unwrap(),
            Ticks(count) => drop(self.sends(1, count)),
            Reply => assert_eq!(self.reply(1), board::Reply::Kept),
            ZeroReply => assert_eq!(self.b.reply(Examiner, 1, 3, &mut self.r), Ok(board::Reply::Kept)),
            Send => self.acts(&[Ticks(10), Reply]),
        }
    }
    fn acts(&mut self, acts: &[Act]) {
        acts.iter().for_each(|act| self.act(*act));
    }
}

/// Channel 1 with these words, after these acts. Event 11h is Start, EEh Group End, AAh the tag.
fn after(words: &[u32], acts: &[Act]) -> Small {
    let mut t = Small::new(words);
    t.acts(&[Write(0x820, 0x111), Write(0x82A, 0x1EE), Write(0x82C, 0x1AA)]);
    t.acts(acts);
    t
}

/// What is then kept of their replies.
fn kept(words: &[u32], acts: &[Act]) -> Vec<u32> {
    let mut t = after(words, acts);
    t.group_end();
    t.part()
}

/// Whether the first word, which is last, is tagged after these acts and a Start.
fn is_tagged(acts: &[Act]) -> bool {
    let words = kept(&[0x8000_0005], &[acts, &[Command(START), Send]].concat());
    let is = words == [FIRST | LAST | TAGGED | KEPT];
    assert!(is || words == [FIRST | LAST | KEPT]);
    is
}

pub fn all() -> Done {
    [register(), marks(), holds(), order(), dropped(), stands(), disarmed(), replies(), commands(), channels(), like_end_word()].concat()
}

/// "Register 2C joins the map with D8 active, D7–D0 code."
fn register() -> Done {
    let mut t = after(&[], &[Write(0x82C, 0xFFFF)]);
    let is_cut = t.b.read(Examiner, 0x82C) == Ok(0x1FF);
    t.act(Write(0x806, 1));
    vec![
        ("2C keeps 9 bits", is_cut),
        ("a reset clears 2C", t.b.read(Examiner, 0x82C) == Ok(0)),
        ("2D, 2E and Main 2C are no registers", [0x82D, 0x82E, 0x2C].iter().all(|&a| t.b.read(Examiner, a) == Err(3))),
        ("the tag event", is_tagged(&[Event(0xAA)])),
        ("another event", !is_tagged(&[Event(0xAB)])),
        ("2C not active", !is_tagged(&[Write(0x82C, 0x2AA), Event(0xAA)])),
        ("2C active, with bits that are dropped", is_tagged(&[Write(0x82C, 0xFFAA), Event(0xAA)])),
        ("Commands D3", is_tagged(&[Command(TAG)])),
        ("Commands without D3", !is_tagged(&[Command(0xFFF0)])),
    ]
}

/// "marks the next setpoint send [...] the send after it ends the mark"
fn marks() -> Done {
    let of_plain = |acts: &[Act]| kept(&[1, 2, 3, 4], acts);
    let once = of_plain(&[Command(START), Send, Command(TAG), Send, Send]);
    let twice = of_plain(&[Command(TAG), Event(0xAA), Command(START), Send, Send]);
    let in_a_row = of_plain(&[Command(TAG), Command(START), Send, Command(TAG), Send, Send]);
    let in_one_record = of_plain(&[Command(START), Command(TAG), Ticks(20), Reply]);
    vec![
        ("one mark", once == [FIRST | KEPT, TAGGED | KEPT, KEPT]),
        ("two tags are one mark", twice == [FIRST | TAGGED | KEPT, KEPT]),
        ("a tag after a tagged send", in_a_row == [FIRST | TAGGED | KEPT, TAGGED | KEPT, KEPT]),
        ("used and ended", in_one_record == [KEPT]),
    ]
}

/// Repeats are sends: they use a tag, and end a mark.
fn holds() -> Done {
    let repeats = [Command(START), Send, Event(0xAA), Send, Send];
    let with_tag = [Command(START), Send, Command(RESUME | TAG), Send, Send];
    let after_tag = [Command(START), Send, Command(TAG), Command(RESUME), Send, Send];
    // Resume 1 Event, the same as the tag's
    let by_event = [Write(0x822, 0x1AA), Command(START), Send, Event(0xAA), Send, Send];
    let resumed = [FIRST | PAUSED | KEPT, TAGGED | KEPT, KEPT];
    vec![
        ("a pause word repeats", kept(&[0x0001_0005], &repeats) == [FIRST | PAUSED | KEPT, PAUSED | TAGGED | KEPT, PAUSED | KEPT]),
        ("the last word repeats", kept(&[0x8000_0005], &repeats) == [FIRST | LAST | KEPT, LAST | TAGGED | KEPT, LAST | KEPT]),
        ("Resume and tag in one command", kept(&[0x0010_0005, 6, 7], &with_tag) == resumed),
        ("Resume after a tag", kept(&[0x0010_0005, 6, 7], &after_tag) == resumed),
        ("Resume and tag in one event", kept(&[0x0001_0005, 6, 7], &by_event) == resumed),
    ]
}

/// "Tag acts last within one event or command."
fn order() -> Done {
    vec![
        ("Group End and tag in one event", is_tagged(&[Write(0x82C, 0x1EE), Event(0xEE)])),
        ("Group End and tag in one command", is_tagged(&[Command(GROUP_END | TAG)])),
        ("a tag before, Group End and tag", is_tagged(&[Command(TAG), Command(GROUP_END | TAG)])),
        ("Start and tag in one event", is_tagged(&[Write(0x82C, 0x111), Event(0x11)])),
        ("all four in one command", is_tagged(&[Command(START | RESUME | GROUP_END | TAG)])),
        // 000A1101h: D19 and D17, data 1101h; user 2 is D26
        ("Group End, Start and tag, another user's word", {
            let mut t = after(&[], &[User(2)]);
            t.b.set(Examiner, Setpoint { c: 1, user: 2, buffer: 2, index: 0, word: 0x000A_1101 }, &mut t.s).unwrap();
            t.acts(&[Write(0x832, 1), Command(GROUP_END | START | TAG), Send]);
            t.r[7] == FIRST | PAUSED | 1 << 26 | TAGGED | KEPT
        }),
    ]
}

/// "Group End, disarm and reset drop a tag not yet used."
fn dropped() -> Done {
    vec![
        ("dropped by a Group End event", !is_tagged(&[Command(TAG), Event(0xEE)])),
        ("dropped by a Group End command, with Start", !is_tagged(&[Command(TAG), Command(GROUP_END | START)])),
        ("dropped by disarm", !is_tagged(&[Command(TAG), Disarm, Arm])),
        ("dropped by disarm, in a start delay", !is_tagged(&[Command(START), Event(0xAA), Disarm, Arm])),
        ("dropped by reset", !is_tagged(&[Command(TAG), Write(0x806, 1), Write(0x80A, 3), Arm])),
    ]
}

/// What is not named as dropping a tag leaves it.
fn stands() -> Done {
    vec![
        ("a user change and back", is_tagged(&[Command(TAG), User(2), User(1)])),
        ("a user change in a start delay", is_tagged(&[Command(START), Command(TAG), User(2), User(1)])),
        ("a restart", is_tagged(&[Command(START), Command(TAG)])),
        ("arming again", is_tagged(&[Command(TAG), Arm])),
        ("a write to 2C", is_tagged(&[Event(0xAA), Write(0x82C, 0)])),
        ("Reset without D0", is_tagged(&[Command(TAG), Write(0x806, 2)])),
    ]
}

/// "on an armed channel"
fn disarmed() -> Done {
    let is_tagged_by = |act: Act| is_tagged(&[Disarm, act, Arm]);
    vec![
        ("a tag event on a disarmed channel", !is_tagged_by(Event(0xAA))),
        ("Commands D3 on a disarmed channel", !is_tagged_by(Command(TAG))),
        ("and with Group End", !is_tagged_by(Command(GROUP_END | TAG))),
    ]
}

/// "Replies kept for that send have D25 set", whatever comes between the send and them.
fn replies() -> Done {
    let late = [Command(START), Ticks(10), Command(TAG), Reply, Send];
    let restarted = [Command(TAG), Command(START), Ticks(10), Command(START), Ticks(9), Reply, Ticks(1), Reply];
    let six = [&[Command(TAG), Command(START), Ticks(10)], &[Reply; 6][..]].concat();
    // document 01: "Frame 7 is well framed, CRC wrong."
    let mut wrong = after(&[1, 2, 3], &[Command(START | TAG), Ticks(10)]);
    wrong.b.reply(Examiner, 1, 7, &mut wrong.r).unwrap();
    // request 2: of six replies one came
    let mut short = after(&[1, 2, 3], &[Write(0x814, 0x15), Command(START | TAG), Send, Ticks(10)]);
    vec![
        ("a tag between a send and its reply", kept(&[1, 2, 3], &late) == [FIRST | KEPT, TAGGED | KEPT]),
        ("a reply in a new start delay", kept(&[1, 2, 3], &restarted) == [FIRST | TAGGED | KEPT, FIRST | KEPT]),
        ("six tagged replies", kept(&[1, 2, 3], &six) == [FIRST | TAGGED | KEPT; 6]),
        ("a tagged reply with a wrong CRC", wrong.r[0] == 0x8300_0000),
        ("a tagged send with a shortfall", short.b.read(Examiner, 0x80C) == Ok(5)),
    ]
}

/// A command frame is no setpoint send, and its replies are in E4–FA, "with D8 of an ID word for a wrong CRC and its
/// other high bits 0" (request 1).
fn commands() -> Done {
    let by_d0 = [Command(TAG), Write(0x8FC, 1), Send];
    let by_d1 = [Write(0x8FC, 2), Command(GROUP_END | TAG), Send];
    let mut t = after(&[], &by_d0);
    vec![
        ("a command frame by D0 uses no tag", is_tagged(&by_d0)),
        ("a command frame by D1 uses no tag", is_tagged(&by_d1)),
        ("replies to it are not tagged", [t.b.read(Examiner, 0x8E4), t.b.read(Examiner, 0x8E6)] == [Ok(0x15), Ok(1)]),
    ]
}

/// One event on two channels: channel 2 has another code at first, then the same.
fn channels() -> Done {
    let words = |code: u16| {
        let mut t = Small::new(&[0x8000_0005]);
        t.b.set(Examiner, Setpoint { c: 2, user: 1, buffer: 1, index: 0, word: 0x8000_0005 }, &mut t.s).unwrap();
        t.b.arm(Examiner, 2).unwrap();
        t.acts(&[Write(0x82C, 0x1AA), Write(0x102C, code), Event(0xAA)]);
        t.acts(&[Command(START), Write(0x1008, START), Ticks(10), ZeroReply]);
        t.b.reply(Examiner, 2, 3, &mut t.r).unwrap();
        // channel 2 has the words from 2 × M on
        [t.r[0], t.r[14]]
    };
    vec![
        ("a tag on one channel", words(0x1AB) == [0xA200_0000, 0xA000_0000]),
        ("a tag on two channels", words(0x1AA) == [0xA200_0000; 2]),
    ]
}

/// "User 1, ID 0, data 0, tagged, may equal the end word, so the count alone says where a retired part ends."
fn like_end_word() -> Done {
    let to_second = [Command(START), Ticks(10), Command(TAG), Ticks(10)];
    let amid = kept(&[1, 2, 3, 4], &[&to_second[..], &[ZeroReply, ZeroReply, Send, ZeroReply]].concat());
    let mut alone = after(&[1, 2, 3, 4], &[&to_second[..], &[ZeroReply]].concat());
    alone.group_end();
    // document 01: "User 1, first and last, ID 15h, data 1234h: A0151234h."
    let mut t = after(&[0x8000_0005], &[Command(START | TAG), Ticks(10)]);
    t.reply(0x1234);
    vec![
        ("words like the end word", amid == [END_WORD, END_WORD, KEPT, 0]),
        ("a part that is like two end words", alone.r[..2] == [END_WORD; 2] && alone.part() == [END_WORD]),
        ("A2151234h", t.r[0] == 0xA215_1234),
    ]
}
