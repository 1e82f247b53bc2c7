//! The register map: which address is whose, what may be read and written, and the bits that are
//! kept. Quotations are document 01's, where no other is named.

/// The channel's registers: (read, write, bits kept). "Offsets from there are even".
pub fn rule(offset: u32) -> Option<(bool, bool, u16)> {
    if offset % 2 != 0 {
        return None;
    }
    match offset {
        0x00 => Some((true, true, 0xFFF7)),
        0x02 | 0x04 | 0x0E | 0x10 | 0x12 => Some((true, false, 0)),
        0x06 | 0x08 => Some((false, true, 0)),
        0x0A => Some((true, true, 0xFFFF)),
        // document 02, request 2: "Read-only register 0C"
        0x0C => Some((true, false, 0)),
        0x14 => Some((true, true, 0x00FF)),
        0x20..=0x2A => Some((true, true, 0x01FF)),
        // document 02, request 6: "Register 2C joins the map with D8 active, D7–D0 code."
        0x2C => Some((true, true, 0x01FF)),
        0x30..=0x3E => Some((false, true, 0x0001)),
        0x40..=0xDE if offset % 4 == 0 => Some((true, true, 0x00FF)),
        0x40..=0xDE => Some((true, true, 0xFFFF)),
        // document 02, request 1: "FC is write-only here. E4–FA and FE are read-only."
        0xE0 | 0xE2 => Some((true, true, 0xFFFF)),
        0xE4..=0xFA | 0xFE => Some((true, false, 0)),
        0xFC => Some((false, true, 0)),
        _ => None,
    }
}

/// The readable offsets of a channel, in order.
pub fn readable() -> Vec<u32> {
    (0..0x800).filter(|&o| matches!(rule(o), Some((true, _, _)))).collect()
}

/// And the writable ones.
pub fn writable() -> Vec<u32> {
    (0..0x800).filter(|&o| matches!(rule(o), Some((_, true, _)))).collect()
}

#[derive(Clone, Copy)]
pub enum Place {
    Main(u32),
    Channel(usize, u32),
}

/// Refusal 3. "Channel c starts at 0800h × c. [...] below 0800h is Main; 2800h and above is refused 3."
pub fn place(address: u32) -> Result<Place, u8> {
    let (c, offset) = (address / 0x800, address % 0x800);
    match c {
        0 if (0x22..=0x2A).contains(&offset) && offset % 2 == 0 => Ok(Place::Main(offset)),
        1..=4 if rule(offset).is_some() => Ok(Place::Channel(c as usize - 1, offset)),
        _ => Err(3),
    }
}

/// Refusal 4: "write to a read-only register, or read of a write-only one".
pub fn check_way(place: Place, is_write: bool) -> Result<(), u8> {
    let is_right = match place {
        // "Main Interrupt Status and 2A Main Polling Status (both read-only; the other three read and write)"
        Place::Main(offset) => !is_write || offset < 0x28,
        Place::Channel(_, offset) => rule(offset).is_some_and(|(read, write, _)| if is_write { write } else { read }),
    };
    if is_right { Ok(()) } else { Err(4) }
}
