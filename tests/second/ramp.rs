//! Ramps from breakpoints: document 02, request 4, whose quotations these are. No board has a part in it.

mod reached;

pub use self::reached::{reached, Asked};

/// "each an index and a signed code from −32,768 to 32,767"
#[derive(Clone, Copy)]
pub struct Breakpoint {
    pub index: u32,
    pub code: i16,
}

const BAD_RAMP: u8 = 11;
const LAST: u32 = 1 << 31;

/// "answers how many words it wrote to each buffer". "Codes go out as 16 bits, two's complement. D31 marks the last
/// word, the other high bits are 0; later words stay."
pub fn ramp(points: &[Breakpoint], n: u32, codes: &mut [u32], remainders: &mut [u32]) -> Result<usize, u8> {
    if !is_good(points, n) || codes.len() < n as usize || remainders.len() < n as usize {
        return Err(BAD_RAMP);
    }
    // an inner breakpoint is the end of one pair and the start of the next, which give the same code and remainder
    for pair in points.windows(2) {
        for i in pair[0].index..=pair[1].index {
            let (code, remainder) = interpolate(pair[0], pair[1], i);
            codes[i as usize] = code as u16 as u32;
            remainders[i as usize] = remainder as u32;
        }
    }
    let last = points[points.len() - 1].index as usize;
    codes[last] |= LAST;
    Ok(last + 1)
}

/// "There are 2 to 64 of them." "The first index is 0, indices rise strictly, and the last is below N." N is in document
/// 01's range.
fn is_good(points: &[Breakpoint], n: u32) -> bool {
    (1..=1_048_576).contains(&n)
        && (2..=64).contains(&points.len())
        && points[0].index == 0
        && points.windows(2).all(|pair| pair[0].index < pair[1].index)
        && points[points.len() - 1].index < n
}

/// "At index i between neighbours (p, s) and (q, t) the code is s + (t − s) × (i − p) / (q − p), rounded down", and with
/// it "the remainder left over, from 0 to q − p − 1".
fn interpolate(from: Breakpoint, to: Breakpoint, i: u32) -> (i64, i64) {
    let (p, s) = (from.index as i64, from.code as i64);
    let (q, t) = (to.index as i64, to.code as i64);
    let (rise, width) = ((t - s) * (i as i64 - p), q - p);
    // by a divisor above 0 the Euclidean quotient is the one rounded down
    (s + rise.div_euclid(width), rise.rem_euclid(width))
}
