//! Examples of the CRC from a list of remainders: document 02, request 5, whose quotations these are. Sums of polynomials
//! "over two-valued coefficients" (document 01) are exclusive ors.

use super::{Done, Small};
use crate::board::Reply;
use crate::frame::{crc, REMAINDERS};
use crate::role::Role::Examiner;

/// Document 01: "x^8 + x^7 + x^5 + x^4 + x + 1"
const POLYNOMIAL: u64 = 1 << 8 | 1 << 7 | 1 << 5 | 1 << 4 | 1 << 1 | 1;

fn product(a: u64, b: u64) -> u64 {
    (0..32).filter(|k| a >> k & 1 == 1).fold(0, |sum, k| sum ^ b << k)
}

/// The other way: all 32 bits and the x^8 at once.
fn long_division(middle: u32) -> u8 {
    let mut rest = (middle as u64) << 8;
    for top in (8..40).rev() {
        if rest >> top & 1 == 1 {
            rest ^= POLYNOMIAL << (top - 8);
        }
    }
    rest as u8
}

pub fn all() -> Done {
    [list(), messages(), orders(), sent(), replied()].concat()
}

/// "one for each byte value: that of the byte times x^8": just one multiple of the polynomial leaves a degree below 8.
fn list() -> Done {
    let is_remainder = |byte: u8| {
        let left = (0..256).map(|quotient| product(quotient, POLYNOMIAL) ^ (byte as u64) << 8);
        left.filter(|rest| *rest < 1 << 8).eq([REMAINDERS[byte as usize] as u64])
    };
    vec![
        ("each entry of the list is the remainder of its byte times x^8", (0..=255).all(is_remainder)),
        ("each entry is the CRC of its byte as auxiliary bits alone", (0..=255).all(|b| crc(b as u32) == REMAINDERS[b])),
    ]
}

/// Each byte value in each of the four places, with these other bytes.
fn of_places(others: u32) -> impl Iterator<Item = u32> {
    let places = (0..32).step_by(8);
    places.flat_map(move |low| (0..256).map(move |byte| others & !(0xFF << low) | byte << low))
}

/// xorshift32
fn drawn(count: usize) -> impl Iterator<Item = u32> {
    let next = |s: &u32| {
        let s = s ^ s << 13;
        let s = s ^ s >> 17;
        Some(s ^ s << 5)
    };
    std::iter::successors(Some(233), next).take(count)
}

/// "However the CRC is worked out now": by long division of the whole message.
fn messages() -> Done {
    let is_same = |middle: u32| crc(middle) == long_division(middle);
    vec![
        ("each byte value in each place, the others 0", of_places(0).all(is_same)),
        ("each byte value in each place, the others FFh", of_places(u32::MAX).all(is_same)),
        ("each byte value in each place of ID 15h, data 1234h", of_places(0x1512_3400).all(is_same)),
        ("10,000 messages", drawn(10_000).all(is_same)),
    ]
}

/// The order of the bytes shows. The polynomial is x + 1 times x^7 + x^4 + 1, which is 91h; x + 1 also divides x^8 + 1, so
/// entry 91h is 91h, as entry 0 is 0, and no other is its byte. So bytes that differ by 91h can change places.
fn orders() -> Done {
    let same = (0..=255).filter(|b| REMAINDERS[*b as usize] == *b);
    let first = (0..=255).filter(|b| crc(u32::from_be_bytes([*b, 0, 0, 0])) == crc(u32::from_be_bytes([0, 0, 0, *b])));
    let data = (0..=255).filter(|b| crc(u32::from_be_bytes([0x15, *b, 0, 0])) == crc(u32::from_be_bytes([0x15, 0, *b, 0])));
    vec![
        ("the entries that are their bytes", same.eq([0, 0x91])),
        ("low byte first is another CRC", first.eq([0, 0x91])),
        ("the data's low byte first is another CRC", data.eq([0, 0x91])),
    ]
}

/// "Every frame [...] stays the same."
fn sent() -> Done {
    let mut t = Small::new(&[0x8000_1234]);
    t.write(0x808, 1);
    let is_right = |id: u16| {
        t.write(0x814, id);
        let middle = (id as u32) << 24 | 0x12_3400;
        let wanted = (middle as u64) << 10 | (long_division(middle) as u64) << 2 | 0b11;
        (0..10).find_map(|_| t.tick(Examiner).unwrap()[0]) == Some(wanted)
    };
    vec![("the setpoint frames of each Frame ID", (0..=255).all(is_right))]
}

/// "Every [...] reply [...] stays the same": of the 256 CRCs that a reply may carry one is right.
fn replied() -> Done {
    let middle = 0x1512_34A5;
    // D24 of the readback, D2 of the status
    let told = |carried: u8| {
        let mut t = Small::new(&[0x8000_1234]);
        t.write(0x808, 1);
        t.sends(1, 10);
        let reply = (middle as u64) << 10 | (carried as u64) << 2 | 0b11;
        let is_kept = t.b.reply(Examiner, 1, reply, &mut t.r) == Ok(Reply::Kept);
        is_kept.then_some((t.r[0] >> 24 & 1 == 1, t.b.read(Examiner, 0x802).unwrap() & 4 != 0))
    };
    let judged = |carried: u8| {
        let is_wrong = carried != long_division(middle);
        told(carried) == Some((is_wrong, is_wrong))
    };
    vec![("replies with each CRC", (0..=255).all(judged))]
}
