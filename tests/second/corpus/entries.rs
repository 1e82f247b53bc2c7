//! What the files of a corpus reach of the list of remainders (document 02, request 5).

use crate::frame::REMAINDERS;

/// Which entries are looked up at each of the four bytes of a message.
pub struct Entries([[bool; 256]; 4]);

impl Entries {
    pub fn new() -> Entries {
        Entries([[false; 256]; 4])
    }

    /// A CRC is worked out of these 32 middle bits.
    pub fn look_up(&mut self, middle: u32) {
        let mut rest = 0;
        for (entries, byte) in self.0.iter_mut().zip(middle.to_be_bytes()) {
            let entry = (rest ^ byte) as usize;
            entries[entry] = true;
            rest = REMAINDERS[entry];
        }
    }

    /// How many of the 256, at each byte.
    pub fn reached(&self) -> [usize; 4] {
        self.0.map(|entries| entries.iter().filter(|is| **is).count())
    }
}
