//! `calls`: every call of the board at any small depth. The format is CALLS.md's, in short:
//! a 16-byte header (N, M, seed, mask), then 16-byte records
//!
//!   0 kind, 1 channel, 2 lent code and role, 3 buffer, 4–7 x, 8–11 y, 12–15 z   (little-endian)
//!
//!    0 open x y, lent z low and z high words    7 retired readbacks   (its lent codes)
//!    1 write register x := y   (readbacks)      8 retired length      (its lent codes)
//!    2 read register x                          9 ticks, x of them    (setpoints)
//!    3 setpoint, user x, index y, word z (s.)  10 event x             (readbacks)
//!    4 arm   5 disarm                          11 user x
//!    6 reply y + z × 2^32      (readbacks)     12 interrupt level   13 poke
//!   14 ramp of y breakpoints, N x, lent z low and z high words, with no board
//!   15 voltages
//!   16 open a download   17 portion, first x, length y   18 its length   (lent codes of 7)
//!   19 the last tick
//!
//! Byte 2 has the lent code in D3–D0 and the role (there a seat) in D5–D4; an opening has the candidate's permissions in
//! byte 1 and the watcher's in byte 3.
//!
//! Lent codes: 0 right, 1 one word short, 2 empty, 3 the other pool's first words, 4 one word
//! long; of retired calls and portions: 0 own, 1 first short, 2 both empty, 3 the next channel's,
//! 4 second short, 5 swapped, 6 first long, 7 own words parted one word early.

pub mod last_tick;
mod parts;
mod record;
pub mod roles;

use self::record::Record;
use self::roles::Roles;
use crate::answer::{answer, ticks, Answer};
use crate::board::{Board, Portion, Setpoint};
use crate::last_tick::watch::{Before, Watch};
use crate::map::readable;
use crate::ramp::{ramp, reached, Asked, Breakpoint};
use crate::role::{Access, Permissions, Role};
use crate::runfile::number;
use crate::tally::Did;
use std::fmt::Write;

pub const SETPOINTS: usize = 64 * 32;
pub const READBACKS: usize = 8 * 64;
/// Where the second half of the setpoint pool starts, which a ramp is lent for its remainders.
const HALF: usize = SETPOINTS / 2;

/// What the header's opening gives.
const OF_HEADER: Access = Access { candidate: Permissions(0xFF), watcher: Permissions(0x0F) };

pub struct Bench {
    pub board: Board,
    setpoints: Vec<u32>,
    readbacks: Vec<u32>,
}

/// The words lent for a right length `len` (which the pool always holds).
fn lend<'a>(pool: &'a mut [u32], other: &'a mut [u32], len: usize, code: u8) -> &'a mut [u32] {
    match code {
        1 => &mut pool[..len.saturating_sub(1)],
        2 => &mut pool[..0],
        3 => {
            let most = len.min(other.len());
            &mut other[..most]
        }
        4 => {
            let most = (len + 1).min(pool.len());
            &mut pool[..most]
        }
        _ => &mut pool[..len],
    }
}

impl Bench {
    /// Fills both pools and opens with as much as the pools hold of the right lengths.
    pub fn new(header: &[u8]) -> (Bench, Answer) {
        let mut s = number(header, 8);
        if s == 0 {
            s = 2_463_534_242;
        }
        let mask = number(header, 12);
        let mut next = || {
            s ^= s << 13;
            s ^= s >> 17;
            s ^= s << 5;
            s
        };
        let setpoints: Vec<u32> = (0..SETPOINTS).map(|_| next() & mask).collect();
        let readbacks: Vec<u32> = (0..READBACKS).map(|_| next()).collect();
        let (n, m) = (number(header, 0), number(header, 4));
        let lent_s = (64 * n as u64).min(SETPOINTS as u64) as usize;
        let lent_r = (8 * m as u64).min(READBACKS as u64) as usize;
        let (mut board, opened) = Board::open(n, m, lent_s, lent_r, OF_HEADER);
        board.watch_volts();
        board.watch_downloads();
        (Bench { board, setpoints, readbacks }, answer(opened, |_| Answer::Ok))
    }

    /// A copy of which nothing was counted or watched so far.
    fn unwatched(&self) -> Bench {
        Bench { board: self.board.unwatched(), setpoints: self.setpoints.clone(), readbacks: self.readbacks.clone() }
    }

    /// Another opening, which takes the place of the board; the tally goes on.
    fn reopen(&mut self, r: Record) -> Answer {
        let (setpoints, readbacks) = (r.z as usize & 0xFFFF, r.z as usize >> 16);
        let access = Access { candidate: Permissions(r.c), watcher: Permissions(r.b) };
        let (mut opened, said) = Board::open(r.x, r.y, setpoints.min(SETPOINTS), readbacks.min(READBACKS), access);
        if said.is_ok() {
            opened.tally.add(Did::opened_again);
            opened.watch_opening(&self.board);
            opened.watch_tag_opening(&self.board);
        }
        opened.watch_volts();
        opened.watch_volts_opening(&self.board);
        opened.watch_downloads();
        opened.watch_download_board_opening(&self.board);
        opened.tally.join(&self.board.tally);
        self.board = opened;
        answer(said, |_| Answer::Ok)
    }

    fn poke(&mut self, is_readback: bool, at: usize, word: u32) -> Answer {
        let pool = if is_readback { &mut self.readbacks } else { &mut self.setpoints };
        match pool.get_mut(at) {
            Some(w) => {
                *w = word;
                Answer::Ok
            }
            None => Answer::None,
        }
    }

    /// The breakpoints are of the readback pool, two words each: the index, and the code in the low 16 bits of the other.
    fn ramp(&mut self, n: u32, count: usize, codes: usize, remainders: usize) -> Answer {
        let pairs = self.readbacks.chunks(2).take(count);
        let points: Vec<_> = pairs.map(|p| Breakpoint { index: p[0], code: p[1] as u16 as i16 }).collect();
        let (first, second) = self.setpoints.split_at_mut(HALF);
        let (codes, remainders) = (&mut first[..codes.min(HALF)], &mut second[..remainders.min(HALF)]);
        for (is, did) in reached(&Asked { points: &points, n, codes, remainders }, &self.board) {
            if is {
                self.board.tally.add(did);
            }
        }
        answer(ramp(&points, n, codes, remainders), Answer::Wrote)
    }

    /// It is lent nothing, whatever the lent code.
    fn voltages(&mut self, role: Role, c: u32, code: u8) -> Answer {
        let told = self.board.voltages(role, c);
        if told.is_ok() && (1..=4).contains(&code) {
            self.board.tally.add(Did::volts_whatever_lent_code);
        }
        answer(told, Answer::Volts)
    }

    /// It is lent nothing, whatever the lent code.
    fn open_download(&mut self, role: Role, c: u32, code: u8) -> Answer {
        let told = self.board.open_download(role, c);
        // with these codes a retired call is refused
        if told.is_ok_and(|count| count > 0) && [1, 2, 4, 6, 7].contains(&code) {
            self.board.tally.add(Did::download_opened_whatever_lent_code);
        }
        answer(told, Answer::Length)
    }

    pub fn step(&mut self, r: &[u8]) -> Answer {
        let r = Record::new(r);
        let Record { kind, role, code, x, y, z, .. } = r;
        let (c, buffer) = (r.c as u32, r.b as u32);
        let (lent_s, lent_r) = (64 * self.board.n as usize, 8 * self.board.m as usize);
        let Bench { board, setpoints, readbacks } = self;
        match kind {
            0 => self.reopen(r),
            1 => answer(board.write(role, x, y as u16, lend(readbacks, setpoints, lent_r, code)), |_| Answer::Ok),
            2 => answer(board.read(role, x), Answer::Value),
            3 => {
                let asked = Setpoint { c, user: x, buffer, index: y, word: z };
                answer(board.set(role, asked, lend(setpoints, readbacks, lent_s, code)), |_| Answer::Ok)
            }
            4 => answer(board.arm(role, c), |_| Answer::Ok),
            5 => answer(board.disarm(role, c), |_| Answer::Ok),
            6 => {
                let frame = (z as u64) << 32 | y as u64;
                answer(board.reply(role, c, frame, lend(readbacks, setpoints, lent_r, code)), Answer::Reply)
            }
            7 | 8 => self.retired(role, c, code, kind == 8),
            9 => ticks(board, role, lend(setpoints, readbacks, lent_s, code), x & 0xFFFF),
            10 => answer(board.event(role, x as u8, lend(readbacks, setpoints, lent_r, code)), |_| Answer::Ok),
            11 => answer(board.change_user(role, x), |_| Answer::Ok),
            12 => answer(board.interrupt_level(role), Answer::Level),
            13 => self.poke(c != 0, x as usize, y),
            14 => self.ramp(x, y as usize & 0xFFFF, z as usize & 0xFFFF, z as usize >> 16),
            15 => self.voltages(role, c, code),
            16 => self.open_download(role, c, code),
            17 | 18 => self.portion(role, Portion { c, first: x, length: y, is_length: kind == 18 }, code),
            19 => answer(board.last_tick(role, c), Answer::LastTick),
            _ => Answer::None,
        }
    }

    /// FNV-1a, 64 bits, over both pools' words as little-endian bytes.
    fn digest(&self) -> u64 {
        let words = self.setpoints.iter().chain(&self.readbacks);
        words.flat_map(|w| w.to_le_bytes()).fold(0xCBF2_9CE4_8422_2325, |h, byte| {
            (h ^ byte as u64).wrapping_mul(0x0000_0100_0000_01B3)
        })
    }
}

pub struct Told {
    pub text: String,
    pub answers: Vec<Answer>,
    /// The bench after it, and what it reaches of roles and of last ticks; none if it is no script.
    pub end: Option<(Bench, Roles, Watch)>,
}

pub fn tell(script: &[u8]) -> Told {
    if script.len() < 16 || script.len() > 65_536 || script.len() % 16 != 0 {
        return Told { text: "script bad\n".into(), answers: Vec::new(), end: None };
    }
    let (mut bench, opened) = Bench::new(&script[..16]);
    let mut text = format!("0 {opened}\n");
    let (mut answers, mut roles, mut watch) = (vec![opened], Roles::default(), Watch::default());
    for (k, record) in script[16..].chunks(16).enumerate() {
        let before = Before::new(&bench.board);
        let a = roles.step(&mut bench, record);
        last_tick::step(&mut watch, record, &a, before, &bench.board);
        writeln!(text, "{} {a}", k + 1).unwrap();
        answers.push(a);
    }
    bench.board.tally_tag_end(&bench.readbacks);
    roles.end(&bench.board);
    let level = bench.board.interrupt_level(Role::Examiner).unwrap();
    write!(text, "end {:016X} level {level} retired", bench.digest()).unwrap();
    for c in 0..4 {
        write!(text, " {}", bench.board.retired_count(c)).unwrap();
    }
    for c in 1..=4 {
        write!(text, "\nchannel {c}").unwrap();
        for offset in readable() {
            write!(text, " {:04X}", bench.board.read(Role::Examiner, 0x800 * c + offset).unwrap()).unwrap();
        }
    }
    text.push_str("\nmain");
    for address in [0x22, 0x24, 0x26, 0x28, 0x2A] {
        write!(text, " {:04X}", bench.board.read(Role::Examiner, address).unwrap()).unwrap();
    }
    text.push('\n');
    Told { text, answers, end: Some((bench, roles, watch)) }
}
