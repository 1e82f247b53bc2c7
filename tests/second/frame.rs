//! The 43-bit frame and its CRC. Quotations are document 01's, where no other is named.

/// "x^8 + x^7 + x^5 + x^4 + x + 1"
const DIVISOR: u16 = 0b1_1011_0011;

/// Document 02, request 5: "that of the byte times x^8, by document 01's polynomial": long division.
const fn remainder(byte: u8) -> u8 {
    let mut rest = (byte as u16) << 8;
    let mut top = 16;
    while top > 8 {
        top -= 1;
        if rest >> top & 1 == 1 {
            rest ^= DIVISOR << (top - 8);
        }
    }
    rest as u8
}

const fn remainders() -> [u8; 256] {
    let mut list = [0; 256];
    let mut byte = 0;
    while byte < 256 {
        list[byte] = remainder(byte as u8);
        byte += 1;
    }
    list
}

/// Document 02, request 5: "256 remainders, one for each byte value".
pub const REMAINDERS: [u8; 256] = remainders();

/// "the remainder of the 32 middle bits, as a polynomial times x^8, [...] high bit first, starting from 0": a byte at a
/// time, high byte first. The next byte is added to the remainder of those before it; the sum, times x^8, leaves its entry.
pub fn crc(middle: u32) -> u8 {
    middle.to_be_bytes().iter().fold(0, |rest, byte| REMAINDERS[(rest ^ byte) as usize])
}

/// "43 bits, high to low: start 0, Frame ID 8, data 16, auxiliary 8, CRC 8, stop 11."
pub fn frame(id: u8, data: u16, auxiliary: u8) -> u64 {
    let middle = (id as u32) << 24 | (data as u32) << 8 | auxiliary as u32;
    (middle as u64) << 10 | (crc(middle) as u64) << 2 | 0b11
}

/// "reply of 2^43 or more, start bit 1, or stop bits not 11"
pub fn badly_framed(reply: u64) -> bool {
    reply >= 1 << 43 || reply >> 42 & 1 == 1 || reply & 3 != 3
}
