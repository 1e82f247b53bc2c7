//! What happens on a channel of the board: "A channel's life" of document 01, whose quotations
//! these are.

use super::tag::Dropped;
use super::volts::Idled;
use super::Board;
use crate::channel::{hold, status_of, Channel, Function, Hold, Loaded, Sent, Window};
use crate::channel::{ACTIVE, COUNT, EE, ENABLE, END, GE, ID, RUN, START, SWITCH, TAG};
use crate::frame::frame;
use crate::last_tick::rows::{How, To};
use crate::tally::Did;
use crate::volts::Reading;

/// What one event or command asks of a channel.
pub struct Asked {
    pub group_end: bool,
    pub start: bool,
    /// Resume 1–4, and 5 for Commands D1.
    pub resume: [bool; 6],
    pub tag: bool,
    pub by_command: bool,
}

impl Asked {
    /// "Event registers keep 9 bits: D8 active, D7–D0 code."
    pub fn by_event(code: u8, ch: &Channel) -> Asked {
        let is = |at: usize| ch.w[at] == 0x100 | code as u16;
        let resume = [false, is(START + 1), is(START + 2), is(START + 3), is(START + 4), false];
        Asked { group_end: is(END), start: is(START), resume, tag: is(TAG), by_command: false }
    }
    /// "Start (its event, or Commands D0)", "Commands D1 (VME pause only)", "Group End (event, or Commands D2)";
    /// document 02, request 6: "A tag event or Commands D3".
    pub fn by_command(value: u16) -> Asked {
        let is = |bit: u16| value >> bit & 1 == 1;
        let resume = [false, false, false, false, false, is(1)];
        Asked { group_end: is(2), start: is(0), resume, tag: is(3), by_command: true }
    }
    pub fn is_nothing(&self) -> bool {
        !(self.group_end || self.start || self.tag || self.resume.contains(&true))
    }
}

/// "D31 first send of the function's first word, D30 paused, D29 last, D28–D26 user less 1"
fn flags(is_first: bool, held: Option<Hold>, user: u32) -> u32 {
    let kind = match held {
        Some(Hold::Last) => 1 << 29,
        Some(Hold::Pause(_)) => 1 << 30,
        None => 0,
    };
    (is_first as u32) << 31 | kind | (user - 1) << 26
}

impl Board {
    /// "A condition enabled in 00 as it happens sets the channel's Main bit in both."
    pub(super) fn latch(&mut self, c: usize, bit: u16) {
        let w = &mut self.ch[c].w;
        w[1] |= bit;
        w[2] |= bit;
        if w[ENABLE] & bit != 0 {
            self.main[0] |= 0x10 << c;
            self.main[1] |= 0x10 << c;
            self.tally.add(Did::main_bit_raised);
        } else {
            self.tally.add(Did::main_bit_not_enabled);
        }
    }

    /// "latch EE if the channel isn't idle and the last word wasn't sent since its latest
    /// Start; idle"
    pub(super) fn end_function(&mut self, c: usize, why: Did) {
        if let Some(f) = self.ch[c].function.take() {
            if !f.ended {
                self.tally.add(why);
                self.latch(c, EE);
            }
        }
    }

    fn group_end(&mut self, c: usize, asked: &Asked, readbacks: &mut [u32]) {
        self.tally.add(if self.ch[c].function.is_some() { Did::group_end_not_idle } else { Did::group_end_idle });
        if !self.ch[c].armed {
            self.tally.add(Did::group_end_disarmed);
        }
        self.watch_idling(c, Did::missing_idled_by_group_end, Did::missing_kept_over_group_end);
        self.drop_tag(c, Dropped::GroupEnd(asked));
        self.watch_volts_idled(c, Idled::GroupEnd { by_command: asked.by_command, with_start: asked.start });
        self.end_download(c, asked);
        self.end_function(c, Did::ee_by_group_end);
        self.command_at_group_end(c);
        self.write_end_word(c, readbacks);
        let (user, ch) = (self.user as usize, &mut self.ch[c]);
        // "readback buffers switch, the new one empty"
        ch.w[ACTIVE] ^= 1 << 8;
        ch.stored[ch.active_readback()] = 0;
        // "users with Switch D0 set switch and the bits clear"
        for u in 0..8 {
            if ch.w[SWITCH + u] == 1 {
                ch.w[ACTIVE] ^= 1 << u;
                ch.w[SWITCH + u] = 0;
                self.tally.add(if u + 1 == user { Did::switch_current_user } else { Did::switch_other_user });
            }
        }
        self.show_count(c);
        self.latch(c, GE);
    }

    /// "the setpoint count is shown, then cleared"
    fn show_count(&mut self, c: usize) {
        let ch = &mut self.ch[c];
        if ch.count != 0 {
            self.tally.add(Did::count_shown_not_zero);
        }
        if ch.count > 0xFFFF {
            self.tally.add(Did::count_past_16_bits);
        }
        if ch.count != 0 && ch.commands != 0 {
            self.tally.add(Did::command_not_in_setpoint_count);
        }
        ch.w[COUNT] = (ch.count >> 16) as u16;
        ch.w[COUNT + 1] = ch.count as u16;
        ch.count = 0;
        ch.commands = 0;
    }

    /// "It loads the current user's start delay (0 for a command) plus 10. The first setpoint
    /// leaves on the tick that brings the count to 0. [...] From idle it latches RUN; otherwise
    /// the function restarts, with no RUN."
    fn start(&mut self, c: usize, by_command: bool, is_ended: bool) {
        self.tally.add(if by_command { Did::start_by_command } else { Did::start_by_event });
        let ch = &mut self.ch[c];
        if !ch.armed {
            self.tally.add(Did::start_disarmed);
            return;
        }
        let delay = if by_command { 0 } else { ch.delay(0, self.user) };
        let to = match ch.function {
            Some(_) => To::Running,
            None if is_ended => To::Ended,
            None => To::Idle,
        };
        let loaded = Loaded { at: self.now, delay, start: Some(How { by_command, to }), resume: 0 };
        let mut f = Function::new(self.now + delay + 10, loaded);
        if let Some(old) = ch.function.take() {
            f.sent = old.sent;
            self.tally.add(Did::restart);
            if old.ended {
                self.tally.add(Did::restart_after_last);
            } else if old.held.is_some() {
                self.tally.add(Did::restart_from_pause);
            }
            ch.function = Some(f);
            self.watch_tag_kept(c, Did::tag_kept_over_restart);
            self.watch_left(c, Did::volts_kept_over_restart, Did::download_kept_over_restart);
        } else {
            ch.function = Some(f);
            self.tally.add(Did::run_latched);
            self.watch_download_kept(c, Did::download_kept_over_start);
            self.latch(c, RUN);
        }
    }

    /// "Resume k (its event, for pause k) or Commands D1 (VME pause only) loads the current
    /// user's delay (0 for D1). [...] Further resumes are ignored meanwhile."
    fn resume(&mut self, c: usize, k: u32) {
        let (now, user, ch) = (self.now, self.user, &mut self.ch[c]);
        let delay = if k == 5 { 0 } else { ch.delay(k, user) };
        let Some(f) = &mut ch.function else { return };
        match f.held {
            Some((_, Hold::Pause(p))) if p != k => self.tally.add(Did::resume_of_other_pause),
            Some((_, Hold::Pause(_))) if f.resume.is_some() => self.tally.add(Did::resume_while_resuming),
            Some((_, Hold::Pause(_))) => {
                // the delay's ticks, 9 silent ones, "the next word leaves on the 10th"
                f.resume = Some(now + delay + 10);
                f.loaded = Loaded { at: now, delay, start: None, resume: k };
                let names = [Did::resume_1, Did::resume_2, Did::resume_3, Did::resume_4, Did::resume_vme];
                self.tally.add(names[k as usize - 1]);
                self.watch_tag_kept(c, Did::tag_kept_over_resume);
                self.watch_left(c, Did::volts_kept_over_resume, Did::download_kept_over_resume);
            }
            _ => {}
        }
    }

    /// "One event or command does Group End, Start, Resume in that order."; by request 6, "Tag acts last".
    pub(super) fn act(&mut self, c: usize, asked: Asked, readbacks: &mut [u32]) {
        if asked.group_end {
            self.tally.add(if asked.by_command { Did::group_end_by_command } else { Did::group_end_by_event });
            self.tally_command_due(c, &asked);
            self.tally_group_end(c, &asked, readbacks);
            self.group_end(c, &asked, readbacks);
        }
        if asked.start {
            if asked.group_end && self.ch[c].armed {
                self.tally.add(Did::group_end_then_start);
            }
            if let Some(Function { held: Some((_, Hold::Pause(p))), .. }) = self.ch[c].function {
                if asked.resume[p as usize] {
                    self.tally.add(Did::start_then_resume);
                }
            }
            self.start(c, asked.by_command, asked.group_end);
        }
        for k in 1..=5 {
            if asked.resume[k] {
                self.resume(c, k as u32);
            }
        }
        // document 02, request 6: "Tag acts last within one event or command."
        if asked.tag {
            self.tag(c, &asked);
        }
    }

    /// Whether the channel sends on this tick: the word that is due (true), or a repeat.
    fn due(&mut self, c: usize) -> Option<bool> {
        let f = self.ch[c].function.as_ref()?;
        match f.resume {
            Some(at) if self.now == at => Some(true),
            // "then 9 ticks are silent"
            Some(at) if self.now + 10 > at => {
                if self.now == f.due {
                    self.tally.add(Did::repeat_dropped_in_silence);
                }
                None
            }
            _ if self.now != f.due => None,
            _ => Some(f.held.is_none()),
        }
    }

    /// The word that is due, from memory.
    fn next_word(&mut self, c: usize, at: usize, setpoints: &[u32]) -> Option<u32> {
        let f = self.ch[c].function.as_mut()?;
        let word = setpoints.get(at).copied().unwrap_or(0);
        let held = hold(word, f.index, self.n);
        let bits = word >> 16 & 0x1F;
        match held {
            Some(Hold::Last) => {
                f.ended = true;
                self.tally.add(if word >> 31 == 1 { Did::last_by_d31 } else { Did::last_by_depth });
                if bits != 0 {
                    self.tally.add(Did::last_over_pause_bits);
                }
            }
            Some(Hold::Pause(_)) if bits & (bits - 1) != 0 => self.tally.add(Did::two_pause_bits),
            _ => {}
        }
        f.held = held.map(|h| (word, h));
        f.index += 1;
        f.resume = None;
        self.tally.add(Did::first_sending);
        Some(word)
    }

    /// "Repeats send the word kept from its first sending."
    fn repeat(&mut self, c: usize, at: usize, setpoints: &[u32]) -> Option<u32> {
        let f = self.ch[c].function.as_ref()?;
        let (kept, h) = f.held?;
        self.tally.add(if h == Hold::Last { Did::repeat_of_last } else { Did::repeat_of_pause });
        if let Some(at) = f.resume {
            self.tally.add(Did::repeat_in_resume_delay);
            if self.now + 10 == at {
                self.tally.add(Did::repeat_on_last_delay_tick);
            }
        }
        if setpoints.get(at.wrapping_sub(1)).is_some_and(|&w| w as u16 != kept as u16) {
            self.tally.add(Did::kept_word_differs_from_memory);
        }
        Some(kept)
    }

    pub(super) fn tick_channel(&mut self, c: usize, setpoints: &[u32]) -> Option<u64> {
        let is_next = self.due(c)?;
        let sending = self.sending(c, is_next);
        self.look_back(c, is_next);
        self.watch_volts_send(c, sending);
        self.watch_download_send(c);
        self.watch_tick_send(c, sending.kind);
        let (now, user) = (self.now, self.user);
        let index = self.ch[c].function.as_ref()?.index;
        let at = self.word_at(c, user, self.ch[c].active_setpoint(user), index);
        let word = if is_next { self.next_word(c, at, setpoints)? } else { self.repeat(c, at, setpoints)? };
        self.close_window(c, Window::ClosedBySetpoint);
        self.watch_send(c);
        let is_tagged = self.use_tag(c, sending);
        let ch = &mut self.ch[c];
        let period = ch.period();
        let f = ch.function.as_mut()?;
        f.fresh = false;
        // "After a send the next follows one period later."
        f.due = now + period;
        f.watch_period(now, period);
        let held = f.held.map(|(_, h)| h);
        let id = ch.w[ID] as u8;
        let flags = flags(is_next && index == 0, held, user);
        // document 02, request 7: until its replies are stored, its readings are lost
        f.sent = Some(Sent { flags, is_tagged, id, replies: 0, readings: [Reading::Lost; 4] });
        // "The count takes every send, repeats too, and stays at FFFFFFh."
        ch.count = (ch.count + 1).min(0xFF_FFFF);
        // "the register's Frame ID, D15–D0 of the word, auxiliary 0"
        let sent = frame(id, word as u16, 0);
        if let Some(h) = held.filter(|_| is_next) {
            self.latch_hold(c, h);
        }
        Some(sent)
    }

    /// "First sending of the last word since Start latches EOF [...] A pause latches its bit once".
    fn latch_hold(&mut self, c: usize, h: Hold) {
        self.tally.add(match h {
            Hold::Last => Did::eof_latched,
            Hold::Pause(k) => [Did::pause_1, Did::pause_2, Did::pause_3, Did::pause_4, Did::pause_vme][k as usize - 1],
        });
        self.tally_missing_with_hold(c, h);
        if h == Hold::Last {
            self.watch_download_kept(c, Did::download_kept_over_last_word);
        }
        self.latch(c, status_of(h));
    }
}
