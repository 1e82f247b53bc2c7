//! Examples of downloads: document 02, request 8, whose quotations these are.
//!
//! A reply with data n to a first word that is neither paused nor last is kept as 80150000h + n.

mod open;

use super::{Done, Small};
use crate::board::Portion;
use crate::role::Role::Examiner;

const ONE: u32 = 0x8015_0001;
const TWO: u32 = 0x8015_0002;
const THREE: u32 = 0x8015_0003;
const END_WORD: u32 = 0x0200_0000;

type Told = Result<Vec<u32>, u8>;

impl Small {
    /// Replies with these data to the first word of a function, then Group End.
    fn retire(&mut self, data: &[usize]) {
        self.write(0x808, 1);
        self.sends(1, 10);
        data.iter().for_each(|data| _ = self.reply(*data));
        self.group_end();
    }
    fn portion_of(&mut self, c: u32, first: u32, length: u32, lent: [&[u32]; 2]) -> Told {
        let words = self.b.portion(Examiner, Portion { c, first, length, is_length: false }, lent);
        words.map(|words| words.to_vec())
    }
    /// A portion of channel 1, lent its own buffers.
    fn portion(&mut self, first: u32, length: u32) -> Told {
        let (m, readbacks) = (self.b.m as usize, self.r.clone());
        self.portion_of(1, first, length, [&readbacks[..m], &readbacks[m..2 * m]])
    }
}

/// Channel 1 of depth M 7, whose download of the replies 1, 2, 3 is open.
fn three() -> Small {
    let mut t = Small::new(&[5, 6]);
    t.retire(&[1, 2, 3]);
    t.b.open_download(Examiner, 1).unwrap();
    t
}

pub fn all() -> Done {
    [counts(), ranges(), large(), next_function(), buffers(), open::all()].concat()
}

/// "Opening a download of a channel remembers the retired count and answers it."
fn counts() -> Done {
    let mut t = Small::of_depth(4, &[5]);
    let mut said = vec![t.b.open_download(Examiner, 1)];
    t.write(0x808, 1);
    t.sends(1, 10);
    t.reply(1);
    said.push(t.b.open_download(Examiner, 1));
    t.group_end();
    said.push(t.b.open_download(Examiner, 1));
    // request 3: a buffer of depth 4 takes three
    t.retire(&[1, 2, 3, 4, 5]);
    said.extend([t.b.open_download(Examiner, 1), t.b.open_download(Examiner, 1), t.b.open_download(Examiner, 2)]);
    t.group_end();
    said.push(t.b.open_download(Examiner, 1));
    let mut depth_1 = Small::of_depth(1, &[5]);
    depth_1.retire(&[1, 2]);
    vec![
        ("counts of openings", said == [Ok(0), Ok(0), Ok(1), Ok(3), Ok(3), Ok(0), Ok(0)]),
        ("no channel is opened", [0, 5, 9, 255].iter().all(|c| t.b.open_download(Examiner, *c) == Err(2))),
        ("M 1, nothing retires", depth_1.b.open_download(Examiner, 1) == Ok(0)),
        ("M 1, length 0", depth_1.portion(0, 0) == Ok(vec![])),
        ("M 1, the end word is in no portion", depth_1.portion(0, 1) == Err(2)),
    ]
}

/// "Portions give a first index and a length and return those words". "Length 0 is allowed." "A portion whose end is past
/// the count is refused 2."
fn ranges() -> Done {
    let mut t = three();
    let mut is = |first, length, wanted: Result<&[u32], u8>| t.portion(first, length) == wanted.map(|words| words.to_vec());
    vec![
        ("all", is(0, 3, Ok(&[ONE, TWO, THREE]))),
        ("the first", is(0, 1, Ok(&[ONE]))),
        ("the first two", is(0, 2, Ok(&[ONE, TWO]))),
        ("the middle one", is(1, 1, Ok(&[TWO]))),
        ("the last two", is(1, 2, Ok(&[TWO, THREE]))),
        ("the last", is(2, 1, Ok(&[THREE]))),
        ("length 0", is(0, 0, Ok(&[])) && is(1, 0, Ok(&[]))),
        ("length 0 at the count", is(3, 0, Ok(&[]))),
        ("length 0 past the count", is(4, 0, Err(2))),
        ("one word past it", is(0, 4, Err(2)) && is(1, 3, Err(2)) && is(2, 2, Err(2))),
        ("the end word", is(3, 1, Err(2))),
        ("the whole buffer", is(0, 7, Err(2))),
        ("past the buffer", is(2, 6, Err(2)) && is(7, 0, Err(2)) && is(8, 1, Err(2))),
        ("all once more", is(0, 3, Ok(&[ONE, TWO, THREE]))),
    ]
}

/// Their sum is no 32-bit number, or a negative one if signed.
fn large() -> Done {
    let mut t = three();
    let sums = [
        (u32::MAX, 1), (u32::MAX, 2), (u32::MAX, 4), (1, u32::MAX), (2, u32::MAX), (3, u32::MAX), (1 << 31, 1 << 31),
        (u32::MAX, u32::MAX), (0xFFFF_FFFE, 2), (0xFFFF_FFFE, 5),
    ];
    let others = [
        (u32::MAX, 0), (0, u32::MAX), (1 << 31, 0), (0, 1 << 31), (0x1_0000, 1), (0, 0x1_0001), (0x100, 1), (0, 0x101),
        (0x7FFF_FFFF, 1),
    ];
    vec![
        ("sums past 32 bits", sums.iter().all(|&(first, length)| t.portion(first, length) == Err(2))),
        ("large numbers", others.iter().all(|&(first, length)| t.portion(first, length) == Err(2))),
    ]
}

/// "while ticks, sends and replies go on"
fn next_function() -> Done {
    let mut t = three();
    let mut said = vec![t.portion(0, 1)];
    t.write(0x808, 1);
    let sent = t.sends(1, 10);
    t.reply(7);
    said.push(t.portion(1, 1));
    let more = t.sends(1, 10);
    t.reply(8);
    t.reply(9);
    said.push(t.portion(2, 1));
    let is_sent = sent == [(10, 5)] && more == [(10, 6)];
    // of the same places of the other buffer; after its second word, plain and not first, D31 is 0
    let is_kept = t.r[7..10] == [0x8015_0007, 0x0015_0008, 0x0015_0009];
    t.group_end();
    let after = t.portion(0, 1);
    let opened = t.b.open_download(Examiner, 1);
    vec![
        ("portions while a function runs", said == [Ok(vec![ONE]), Ok(vec![TWO]), Ok(vec![THREE])]),
        ("the function runs", is_sent && is_kept),
        ("overtaken by its Group End", after == Err(12)),
        ("its own download", opened == Ok(3) && t.portion(0, 2) == Ok(vec![0x8015_0007, 0x0015_0008])),
    ]
}

/// "A portion is lent the channel's two buffers on the terms of a retired-readbacks call."
fn buffers() -> Done {
    let mut t = three();
    let (first, second) = ([10, 11, 12, 13, 14, 15, 16], [20, 21, 22, 23, 24, 25, 26]);
    let foreign = t.portion_of(1, 1, 2, [&first, &second]);
    t.retire(&[1, 2]);
    let own = [t.b.open_download(Examiner, 1), t.b.open_download(Examiner, 2)];
    let of_second = t.portion_of(1, 0, 2, [&first, &second]);
    let of_channel_2 = t.portion_of(2, 0, 0, [&first, &second]);
    let is_retired_after = t.part() == [ONE, TWO] && t.r[9] == END_WORD;
    vec![
        ("buffer 1 of those lent", foreign == Ok(vec![11, 12])),
        ("buffer 2 of those lent", own == [Ok(2), Ok(0)] && of_second == Ok(vec![20, 21])),
        ("each channel has its own", of_channel_2 == Ok(vec![]) && t.portion_of(2, 0, 1, [&first, &second]) == Err(2)),
        ("the retired part is as it was", is_retired_after),
    ]
}
