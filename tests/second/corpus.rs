//! `gen` writes run files and call scripts, `answers` what this program says to them, and
//! `summary` what a corpus reaches.
//!
//! A story is grown on a live bench, so that each next call can suit (or spite) the state a
//! channel is in: the resume of the pause it stands in or of another, as many ticks as bring
//! its next send, one fewer or one more, the seventh reply, a buffer filled to the brim.

mod acts;
mod aside;
mod commands;
mod crc;
mod dice;
mod download;
mod end_word;
mod entries;
mod files;
mod last_tick;
mod missing;
mod ramp;
mod roles;
mod story;
mod summary;
mod tag;
mod volts;
mod world;

pub use self::files::generate;
pub use self::summary::{answers, summary};
