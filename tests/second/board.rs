//! The four-channel board, from documents 01, 000 and 02: its calls. Quotations are document 01's.

mod access;
mod command;
mod copies;
mod crc;
mod download;
mod end_word;
mod last_tick;
mod life;
mod missing;
mod peek;
mod record;
mod refused;
mod replies;
mod rows;
pub mod sending;
mod setpoint;
mod tag;
mod tick;
mod volts;

pub use self::download::Portion;
pub use self::peek::Peek;
pub use self::replies::Reply;
pub use self::setpoint::Setpoint;
use self::access::{may_examine, may_run};
use self::crc::Unread;
use self::download::Downloads;
use self::end_word::Groups;
use self::last_tick::Ticks;
use self::life::Asked;
use self::missing::Watch;
use self::tag::{Dropped, Tags};
use self::volts::{Idled, WatchedVolts};
use crate::channel::{Channel, Window, CLOCK, SWITCH, TAG};
use crate::map::{check_way, place, rule, Place};
use crate::role::{Access, Role};
use crate::tally::{Did, Tally};

#[derive(Clone)]
pub struct Board {
    pub n: u32,
    pub m: u32,
    pub user: u32,
    /// What the opening gave.
    access: Access,
    now: u64,
    /// Main 22, 24, 26.
    level: u16,
    vector: u16,
    enable: u16,
    /// D7–D3 of Main 28 and 2A.
    main: [u16; 2],
    ch: [Channel; 4],
    pub tally: Tally,
    /// For the tally alone.
    watch: [Watch; 4],
    groups: [Groups; 4],
    unread: [Unread; 4],
    tags: [Tags; 4],
    /// Of each channel, on a script's board; else empty.
    watched_volts: Vec<WatchedVolts>,
    /// On a script's board; else none.
    downloads: Option<Downloads>,
    ticks: Ticks,
}

impl Board {
    /// "all registers 0, channels disarmed, user 1, buffers 1 active, no readbacks"
    fn blank(n: u32, m: u32, access: Access) -> Board {
        Board {
            n,
            m,
            user: 1,
            access,
            now: 0,
            level: 0,
            vector: 0,
            enable: 0,
            main: [0, 0],
            ch: [Channel::new(), Channel::new(), Channel::new(), Channel::new()],
            tally: Tally::new(),
            watch: Default::default(),
            groups: Default::default(),
            unread: Default::default(),
            tags: Default::default(),
            watched_volts: Vec::new(),
            downloads: None,
            ticks: Ticks::default(),
        }
    }

    /// Misfit: "a depth out of range, or lent lengths other than 64 × N and 8 × M". What a
    /// refused opening leaves is a closed board, of depths 0, with the permissions that it named.
    pub fn open(n: u32, m: u32, setpoints: usize, readbacks: usize, access: Access) -> (Board, Result<(), u8>) {
        let fits = (1..=1_048_576).contains(&n)
            && (1..=8_388_608).contains(&m)
            && setpoints as u64 == 64 * n as u64
            && readbacks as u64 == 8 * m as u64;
        if fits {
            (Board::blank(n, m, access), Ok(()))
        } else {
            let mut b = Board::blank(0, 0, access);
            b.tally.add(Did::open_refused);
            (b, Err(1))
        }
    }

    fn setpoints_fit(&self, lent: &[u32]) -> Result<(), u8> {
        if lent.len() as u64 == 64 * self.n as u64 { Ok(()) } else { Err(1) }
    }
    fn readbacks_fit(&self, lent: &[u32]) -> Result<(), u8> {
        if lent.len() as u64 == 8 * self.m as u64 { Ok(()) } else { Err(1) }
    }
    /// A channel's number as a place: "channel, user, buffer or index (from 0) out of range"
    fn channel(c: u32) -> Result<usize, u8> {
        if (1..=4).contains(&c) { Ok(c as usize - 1) } else { Err(2) }
    }

    /// Refusals 1, 3, 13, 4, 10, 5.
    pub fn write(&mut self, role: Role, address: u32, value: u16, readbacks: &mut [u32]) -> Result<(), u8> {
        self.readbacks_fit(readbacks).inspect_err(|_| self.tally_write_refused(role, address, value))?;
        let place = place(address)?;
        self.may_write_register(role, place)?;
        check_way(place, true).inspect_err(|_| self.tally_missing_written(address))?;
        let (c, offset) = match place {
            Place::Main(0x22) => return Ok(self.level = value & 7),
            Place::Main(0x24) => return Ok(self.vector = value),
            Place::Main(_) => return Ok(self.enable = value & 0xF7),
            Place::Channel(c, offset) => (c, offset),
        };
        match offset {
            0x06 if value & 1 == 1 => self.reset(c),
            0x06 => {
                self.tally.add(Did::reset_without_d0);
                self.watch_tag_kept(c, Did::tag_kept_over_reset_without_d0);
                self.watch_left(c, Did::volts_kept_over_reset_without_d0, Did::download_kept_over_reset_without_d0);
            }
            0x08 => self.act(c, Asked::by_command(value), readbacks),
            0xFC => return self.ask_command(c, value),
            // "A code is the whole word written"
            0x0A if value > 3 => return Err(5),
            _ => self.keep(c, offset, value),
        }
        Ok(())
    }

    /// "Reset D0 returns that channel to its opening state; lent words and its Main bits stay"
    fn reset(&mut self, c: usize) {
        self.tally.add(if self.ch[c].function.is_some() { Did::reset_not_idle } else { Did::reset_idle });
        self.drop_command(c, Did::command_dropped_by_reset);
        self.close_window(c, Window::Closed);
        self.drop_tag(c, Dropped::Reset);
        self.watch_volts_idled(c, Idled::Reset);
        self.watch_download_reset(c);
        self.watch_reset(c);
        self.watch_group_reset(c);
        self.watch_crc_reset(c);
        self.watch_tick_reset(c);
        self.ch[c] = Channel::new();
    }

    /// "Other bits written are dropped and read 0."
    fn keep(&mut self, c: usize, offset: u32, value: u16) {
        let kept = value & rule(offset).map_or(0, |r| r.2);
        let at = offset as usize / 2;
        if at == CLOCK && self.ch[c].function.is_some() && self.ch[c].w[at] != kept {
            self.tally.add(Did::clock_changed_while_running);
        }
        if (SWITCH..SWITCH + 8).contains(&at) && kept == 0 && self.ch[c].w[at] == 1 {
            self.tally.add(Did::switch_withdrawn);
        }
        if at == TAG {
            self.watch_tag_register(c, value);
        }
        self.watch_left(c, Did::volts_kept_over_register_write, Did::download_kept_over_register_write);
        self.ch[c].w[at] = kept;
    }

    /// Refusals 3, 13, 4. "Reading a status clears the latched bits (all of a channel's, D7–D3 of
    /// Main) of that register only."
    pub fn read(&mut self, role: Role, address: u32) -> Result<u16, u8> {
        let place = place(address)?;
        self.may_read_register(role, place)?;
        check_way(place, false)?;
        match place {
            Place::Main(0x22) => Ok(self.level),
            Place::Main(0x24) => Ok(self.vector),
            Place::Main(0x26) => Ok(self.enable),
            // "D11 is 1, D10–D8 user less 1, D7–D4 channels 4–1, D3 an event came, rest 0"
            Place::Main(offset) => {
                let latched = std::mem::take(&mut self.main[(offset as usize - 0x28) / 2]);
                if latched & 0xF0 != 0 {
                    self.tally.add(Did::main_status_read);
                }
                Ok(1 << 11 | (self.user as u16 - 1) << 8 | latched)
            }
            Place::Channel(c, offset @ (0x02 | 0x04)) => {
                let latched = std::mem::take(&mut self.ch[c].w[offset as usize / 2]);
                if latched != 0 {
                    self.tally.add(Did::channel_status_read);
                }
                self.watch_status_read(c, latched);
                self.tally_crc(c, offset, latched);
                self.watch_left(c, Did::volts_kept_over_status_read, Did::download_kept_over_status_read);
                Ok(latched)
            }
            Place::Channel(c, 0x0C) => {
                let count = self.read_missing(c);
                self.tally_tag_shortfall(c, count);
                self.watch_left(c, Did::volts_kept_over_count_read, Did::download_kept_over_count_read);
                Ok(count)
            }
            Place::Channel(c, offset) => {
                self.tally_command_read(c, offset as usize / 2);
                self.tally_tag_register(c, offset as usize / 2);
                Ok(self.ch[c].w[offset as usize / 2])
            }
        }
    }

    /// Refusals 2, 13. "Arming an armed channel changes nothing."
    pub fn arm(&mut self, role: Role, c: u32) -> Result<(), u8> {
        let c = Board::channel(c)?;
        self.may_write(role, c)?;
        if self.ch[c].armed {
            self.tally.add(Did::arm_armed);
            self.watch_tag_kept(c, Did::tag_kept_over_arm);
            self.watch_volts_kept(c, Did::volts_kept_over_arm);
        }
        self.watch_download_kept(c, Did::download_kept_over_arm);
        self.ch[c].armed = true;
        Ok(())
    }

    /// Refusals 2, 13. "Disarm idles, without EE."
    pub fn disarm(&mut self, role: Role, c: u32) -> Result<(), u8> {
        let c = Board::channel(c)?;
        self.may_write(role, c)?;
        self.tally.add(if self.ch[c].function.is_some() { Did::disarm_not_idle } else { Did::disarm_idle });
        let is_armed = self.ch[c].armed;
        self.drop_command(c, if is_armed { Did::command_dropped_by_disarm } else { Did::command_dropped_by_disarm_of_disarmed });
        self.drop_tag(c, Dropped::Disarm);
        self.watch_volts_idled(c, Idled::Disarm);
        self.watch_download_kept(c, Did::download_kept_over_disarm);
        self.watch_idling(c, Did::missing_idled_by_disarm, Did::missing_kept_over_disarm);
        self.ch[c].function = None;
        self.ch[c].armed = false;
        Ok(())
    }

    /// Refusals 1, 13. "Event registers keep 9 bits: D8 active, D7–D0 code."
    pub fn event(&mut self, role: Role, code: u8, readbacks: &mut [u32]) -> Result<(), u8> {
        self.readbacks_fit(readbacks).inspect_err(|_| self.tally_event_refused(role, code))?;
        may_run(role)?;
        self.tally.add(Did::event_came);
        // "D3 an event came"
        self.main[0] |= 8;
        self.main[1] |= 8;
        let downloads = self.open_downloads();
        for c in 0..4 {
            let asked = Asked::by_event(code, &self.ch[c]);
            if asked.is_nothing() {
                self.watch_left(c, Did::volts_kept_over_event_of_no_meaning, Did::download_kept_over_event_of_no_meaning);
            }
            self.act(c, asked, readbacks);
        }
        self.watch_tag_event(code);
        self.watch_download_event(downloads);
        Ok(())
    }

    /// Refusals 13, 2. "A user change to another user idles every channel, with EE as above."
    pub fn change_user(&mut self, role: Role, user: u32) -> Result<(), u8> {
        may_examine(role)?;
        if !(1..=8).contains(&user) {
            (0..4).for_each(|c| self.watch_left(c, Did::volts_kept_over_refused_user, Did::download_kept_over_refused_user));
            return Err(2);
        }
        if user == self.user {
            self.tally.add(Did::user_same);
            for c in 0..4 {
                self.watch_tag_kept(c, Did::tag_kept_over_same_user);
                self.watch_left(c, Did::volts_kept_over_same_user, Did::download_kept_over_same_user);
            }
            return Ok(());
        }
        self.tally.add(Did::user_changed);
        let from = std::mem::replace(&mut self.user, user);
        for c in 0..4 {
            self.watch_idling(c, Did::missing_idled_by_user_change, Did::missing_kept_over_user_change);
            self.watch_tag_kept(c, Did::tag_kept_over_user_change);
            self.watch_volts_idled(c, Idled::UserChange { from, to: user });
            self.watch_download_kept(c, Did::download_kept_over_user_change);
            self.end_function(c, Did::ee_by_user_change);
            if self.is_for_command(c) {
                self.tally.add(Did::command_window_open_at_user_change);
            }
        }
        Ok(())
    }

    /// Refusal 13. "The interrupt level is Level if some D7–D4 is set in both 28 and 26, else 0."
    pub fn interrupt_level(&mut self, role: Role) -> Result<u16, u8> {
        may_examine(role)?;
        let raised = self.main[0] & self.enable & 0xF0 != 0;
        if raised && self.level != 0 {
            self.tally.add(Did::level_not_zero);
        } else if self.main[0] & 0xF0 != 0 && self.level != 0 {
            self.tally.add(Did::level_zero_while_latched);
        }
        Ok(if raised { self.level } else { 0 })
    }
}
