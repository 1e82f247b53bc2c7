//! The answers to calls, as `trace` and `calls` print them.

use crate::board::{Board, Reply};
use crate::last_tick::LastTick;
use crate::role::Role;
use crate::volts::Reading;
use std::fmt;

#[derive(Clone, PartialEq, Debug)]
pub enum Answer {
    Ok,
    Value(u16),
    /// (tick within the record from 1, channel 1–4, frame), by tick, then channel.
    Ticks(Vec<(u32, usize, u64)>),
    Reply(Reply),
    Part(Vec<u32>),
    Length(usize),
    Level(u16),
    /// The words that a ramp wrote to each buffer.
    Wrote(usize),
    Volts([Reading; 4]),
    LastTick(LastTick),
    /// A script record that makes no call.
    None,
    Refused(u8),
}

impl fmt::Display for Answer {
    fn fmt(&self, f: &mut fmt::Formatter) -> fmt::Result {
        match self {
            Answer::Ok => write!(f, "ok"),
            Answer::Value(v) => write!(f, "value {v:04X}"),
            Answer::Ticks(sent) => {
                write!(f, "ticks")?;
                sent.iter().try_for_each(|(t, c, frame)| write!(f, " {t}:{c}:{frame:011X}"))
            }
            Answer::Reply(Reply::Kept) => write!(f, "kept"),
            Answer::Reply(Reply::Lost) => write!(f, "lost"),
            Answer::Reply(Reply::Unasked) => write!(f, "unasked"),
            Answer::Part(words) => {
                write!(f, "part")?;
                words.iter().try_for_each(|w| write!(f, " {w:08X}"))
            }
            Answer::Length(n) => write!(f, "length {n}"),
            Answer::Level(n) => write!(f, "level {n}"),
            Answer::Wrote(n) => write!(f, "wrote {n}"),
            Answer::Volts(readings) => {
                write!(f, "volts")?;
                readings.iter().try_for_each(|reading| write!(f, " {reading}"))
            }
            Answer::LastTick(last) => write!(f, "reason {last}"),
            Answer::None => write!(f, "none"),
            Answer::Refused(n) => write!(f, "refused {n}"),
        }
    }
}

/// An answer or a refusal's number as an answer.
pub fn answer<T>(result: Result<T, u8>, show: impl FnOnce(T) -> Answer) -> Answer {
    result.map_or_else(Answer::Refused, show)
}

/// As many ticks; the first that is refused is the answer.
pub fn ticks(board: &mut Board, role: Role, setpoints: &[u32], count: u32) -> Answer {
    let mut sent = Vec::new();
    board.tally_ticks(role, setpoints, count);
    board.watch_record();
    board.watch_tag_record();
    board.watch_volts_record();
    board.watch_tick_record();
    for t in 1..=count {
        if let Err(n) = board.tick(role, setpoints, |c, frame| sent.push((t, c + 1, frame))) {
            return Answer::Refused(n);
        }
    }
    board.watch_download_ticks(count);
    Answer::Ticks(sent)
}
