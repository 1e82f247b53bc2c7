//! `selftest`: document 01's starred examples, and examples of document 02's requests 3 to 10, run on this program.

mod crc;
mod download;
mod end_word;
mod last_tick;
mod ramp;
mod roles;
mod tag;
mod volts;

use crate::board::{Board, Reply, Setpoint};
use crate::frame::{crc, frame};
use crate::role::{Access, Role, Role::Examiner};
use crate::{runfile, script};

struct Small {
    b: Board,
    s: Vec<u32>,
    r: Vec<u32>,
}

impl Small {
    /// Channel 1 armed, period 10, with these words.
    fn new(words: &[u32]) -> Small {
        Small::of_depth(7, words)
    }
    /// The same, of this depth M.
    fn of_depth(m: u32, words: &[u32]) -> Small {
        Small::open_for(m, words, Access::NONE)
    }
    /// And with these permissions.
    fn open_for(m: u32, words: &[u32], access: Access) -> Small {
        let (s, r) = (vec![0; 256], vec![0; 8 * m as usize]);
        let mut t = Small { b: Board::open(4, m, s.len(), r.len(), access).0, s, r };
        for (i, &w) in words.iter().enumerate() {
            t.b.set(Examiner, Setpoint { c: 1, user: 1, buffer: 1, index: i as u32, word: w }, &mut t.s).unwrap();
        }
        t.write(0x80A, 3);
        t.b.arm(Examiner, 1).unwrap();
        t
    }
    fn write(&mut self, address: u32, value: u16) {
        self.b.write(Examiner, address, value, &mut self.r).unwrap();
    }
    /// A tick: the frames that the role is shown.
    fn tick(&mut self, role: Role) -> Result<[Option<u64>; 4], u8> {
        let mut frames = [None; 4];
        self.b.tick(role, &self.s, |c, frame| frames[c] = Some(frame)).map(|_| frames)
    }
    /// The ticks (counted on from `from`) on which channel 1 sends, with the data sent.
    fn sends(&mut self, from: u64, to: u64) -> Vec<(u64, u64)> {
        let mut seen = Vec::new();
        for t in from..=to {
            if let Some(f) = self.tick(Examiner).unwrap()[0] {
                seen.push((t, f >> 18 & 0xFFFF));
            }
        }
        seen
    }
    /// A reply of ID 15h.
    fn reply(&mut self, data: usize) -> Reply {
        self.b.reply(Examiner, 1, frame(0x15, data as u16, 0), &mut self.r).unwrap()
    }
    fn group_end(&mut self) {
        self.write(0x808, 4);
    }
    /// Channel 1's retired part.
    fn part(&mut self) -> Vec<u32> {
        let m = self.b.m as usize;
        let (first, second) = (&self.r[..m], &self.r[m..2 * m]);
        let (is_second, length) = self.b.retired(Examiner, 1, first, second).unwrap();
        (if is_second { second } else { first })[..length].to_vec()
    }
}

type Done = Vec<(&'static str, bool)>;

pub fn all() -> Done {
    let of_requests = [
        end_word::all(), ramp::all(), crc::all(), tag::all(), volts::all(), download::all(), roles::all(), last_tick::all(),
    ];
    [frames(), starts(), resumes(), kept_words(), files(), of_requests.concat()].concat()
}

fn frames() -> Done {
    let mut t = Small::new(&[0x8000_0005]);
    t.write(0x808, 1);
    t.sends(1, 10);
    vec![
        // "ID, data 0: auxiliary 0, 1, 2, 3 give CRC 00h, B3h, D5h, 66h; frames 3, 1743, 2903, 3483."
        ("CRC rows", (0..4).map(crc).eq([0x00, 0xB3, 0xD5, 0x66])),
        ("frames", (0..4).map(|a| frame(0, 0, a)).eq([3, 1743, 2903, 3483])),
        // "Frame 7 is well framed, CRC wrong. 2 and 2^42 + 3 refuse 7."
        ("frame 7", t.b.reply(Examiner, 1, 7, &mut t.r) == Ok(Reply::Kept) && t.r[0] == 0xA100_0000),
        ("2 and 2^42 + 3", [2, (1 << 42) + 3].iter().all(|&f| t.b.reply(Examiner, 1, f, &mut t.r) == Err(7))),
    ]
}

/// "Delay 0: first frame on tick 10. Delay FFFFFFh: tick 16,777,225."
fn starts() -> Done {
    let started = |high, low| {
        let mut t = Small::new(&[5]);
        t.write(0x820, 0x101);
        t.write(0x840, high);
        t.write(0x842, low);
        t.b.event(Examiner, 1, &mut t.r).unwrap();
        t
    };
    vec![
        ("first frame on tick 10", started(0, 0).sends(1, 10) == [(10, 5)]),
        ("first frame on tick 16,777,225", started(0xFF, 0xFFFF).sends(1, 16_777_225) == [(16_777_225, 5)]),
    ]
}

/// "Period 10, pause 1 sent on tick 10, resume delay 25 then loaded: repeats on 20 and 30, next
/// word on 45. Delay 0: next on 20."
fn resumes() -> Done {
    let mut done = Vec::new();
    for (delay, seen) in [(25, &[(20, 5), (30, 5), (45, 6)][..]), (0, &[(20, 6)]), (20, &[(20, 5), (30, 5), (40, 6)])] {
        let mut t = Small::new(&[0x0001_0005, 6]);
        t.write(0x822, 0x1AA);
        t.write(0x862, delay);
        t.write(0x808, 1);
        t.sends(1, 10);
        t.b.event(Examiner, 0xAA, &mut t.r).unwrap();
        let last = seen[seen.len() - 1].0;
        done.push(("resume row", t.sends(11, last) == seen));
    }
    done
}

/// "D31 with D16: last. User 1, first and last, ID 15h, data 1234h: A0151234h."
fn kept_words() -> Done {
    let mut t = Small::new(&[0x8001_1234]);
    t.write(0x814, 0x15);
    t.write(0x808, 1);
    t.sends(1, 10);
    let is_last = t.b.read(Examiner, 0x804) == Ok(0xC000);
    t.b.reply(Examiner, 1, frame(0x15, 0x1234, 0), &mut t.r).unwrap();
    vec![("D31 with D16", is_last), ("A0151234h", t.r[0] == 0xA015_1234)]
}

/// The whole case, the empty run, what is no run file, and a script that opens no board.
fn files() -> Done {
    let whole = [
        [3, 1, 0, 0, 5, 0, 0, 0x80], [1, 0, 0x0A, 8, 3, 0, 0, 0], [8, 1, 0, 0, 1, 0, 0, 0],
        [1, 0, 8, 8, 1, 0, 0, 0], [5, 0, 0, 0, 30, 0, 0, 0], [48, 0, 0, 0, 5, 0, 0, 0],
    ]
    .concat();
    let empty = [8, 0, 0, 0, 0, 0, 0, 0];
    // 8 × count + 8 comes to 8 in 32 bits
    let wraps = [8, 0, 0, 0, 0, 0, 0, 0x20];
    vec![
        ("whole case", runfile::tell(&whole).line == "steps 5 refused 0 frames 3 0 0 0\n"),
        ("empty run", runfile::tell(&empty).line == "steps 0 refused 0 frames 0 0 0 0\n"),
        ("no run files", [&[0; 8][..], &[0; 7], &wraps, &vec![0; 65_537]].iter().all(|f| runfile::tell(f).line == "file 8\n")),
        ("closed board", script::tell(&[0; 16]).text.starts_with("0 refused 1\nend ")),
    ]
}
