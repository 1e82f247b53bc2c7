//! Examples of ramps, each worked out by hand: document 02, request 4, whose quotations these are.

use super::Done;
use crate::ramp::{ramp, Breakpoint};
use crate::script;

/// What stands in the lent words before a case.
const UNUSED: u32 = 0xA5A5_A5A5;
/// The most that N can be.
const MOST: u32 = 1_048_576;

fn breakpoints(points: &[(u32, i16)]) -> Vec<Breakpoint> {
    points.iter().map(|&(index, code)| Breakpoint { index, code }).collect()
}

pub fn all() -> Done {
    [written(), later_words(), most_breakpoints(), greatest_n(), refused(), out_of_range(), in_scripts()].concat()
}

type Row = (&'static str, &'static [(u32, i16)], &'static [u32], &'static [u32]);

/// Breakpoints, codes, remainders.
const ROWS: [Row; 10] = [
    // "From (0, 0) to (3, −1) the codes are 0, −1, −1, −1 with remainders 0, 2, 1, 0."
    ("0 to -1 over 3", &[(0, 0), (3, -1)], &[0, 0xFFFF, 0xFFFF, 0x8000_FFFF], &[0, 2, 1, 0]),
    // 11, 22, 33 by 4
    ("5 to 16 over 4", &[(0, 5), (4, 16)], &[5, 7, 10, 13, 0x8000_0010], &[0, 3, 2, 1, 0]),
    // -7 = -2 × 4 + 1, -14 = -4 × 4 + 2, -21 = -6 × 4 + 3
    ("10 to 3 over 4", &[(0, 10), (4, 3)], &[10, 8, 6, 4, 0x8000_0003], &[0, 1, 2, 3, 0]),
    // 7, 14, 21 by 4: codes -10, -9, -7, -5, -3
    ("-10 to -3 over 4", &[(0, -10), (4, -3)], &[0xFFF6, 0xFFF7, 0xFFF9, 0xFFFB, 0x8000_FFFD], &[0, 3, 2, 1, 0]),
    // 3 by 2; -7 = -3 × 3 + 2, -14 = -5 × 3 + 1
    ("0 to 3 to -4", &[(0, 0), (2, 3), (5, -4)], &[0, 1, 3, 0, 0xFFFE, 0x8000_FFFC], &[0, 1, 0, 2, 1, 0]),
    // 65,535 = 9,362 × 7 + 1: codes -32,768, -23,406, -14,044, -4,682, 4,680, 14,042, 23,404, 32,767
    (
        "-32,768 to 32,767 over 7",
        &[(0, -32_768), (7, 32_767)],
        &[0x8000, 0xA492, 0xC924, 0xEDB6, 0x1248, 0x36DA, 0x5B6C, 0x8000_7FFF],
        &[0, 1, 2, 3, 4, 5, 6, 0],
    ),
    // -65,535 = -16,384 × 4 + 1, and twice and three times that: codes 32,767, 16,383, -1, -16,385, -32,768
    (
        "32,767 to -32,768 over 4",
        &[(0, 32_767), (4, -32_768)],
        &[0x7FFF, 0x3FFF, 0xFFFF, 0xBFFF, 0x8000_8000],
        &[0, 1, 2, 3, 0],
    ),
    ("each index a breakpoint", &[(0, -1), (1, 1), (2, -32_768)], &[0xFFFF, 1, 0x8000_8000], &[0, 0, 0]),
    // 2, 4, 6 by 4
    ("a whole code between", &[(0, 0), (4, 2)], &[0, 0, 1, 1, 0x8000_0002], &[0, 2, 0, 2, 0]),
    ("level", &[(0, -2), (3, -2)], &[0xFFFE, 0xFFFE, 0xFFFE, 0x8000_FFFE], &[0, 0, 0, 0]),
];

/// Buffers of N words, the last index being N − 1.
fn written() -> Done {
    let mut done = Vec::new();
    for (label, points, codes, remainders) in ROWS {
        let n = codes.len();
        let (mut first, mut second) = (vec![UNUSED; n], vec![UNUSED; n]);
        let told = ramp(&breakpoints(points), n as u32, &mut first, &mut second);
        done.push((label, told == Ok(n) && first == codes && second == remainders));
    }
    done
}

/// "later words stay": those below N, and those from N on.
fn later_words() -> Done {
    let (mut first, mut second) = ([UNUSED; 6], [UNUSED; 7]);
    let told = ramp(&breakpoints(&[(0, 1), (2, 2)]), 5, &mut first, &mut second);
    let is_left = first[3..] == [UNUSED; 3] && second[3..] == [UNUSED; 4];
    vec![
        ("words up to the last index", told == Ok(3) && first[..3] == [1, 1, 0x8000_0002] && second[..3] == [0, 1, 0]),
        ("later words", is_left),
    ]
}

/// "There are 2 to 64 of them." Breakpoint i has index i and code 32 − i.
fn most_breakpoints() -> Done {
    let told = |count: u32| {
        let points: Vec<_> = (0..count).map(|i| Breakpoint { index: i, code: 32 - i as i16 }).collect();
        let (mut codes, mut remainders) = ([UNUSED; 70], [UNUSED; 70]);
        (ramp(&points, 70, &mut codes, &mut remainders), codes, remainders)
    };
    let (most, codes, remainders) = told(64);
    let is_code = codes[1] == 31 && codes[32] == 0 && codes[33] == 0xFFFF && codes[62] == 0xFFE2 && codes[63] == 0x8000_FFE1;
    let is_remainder = remainders[..64] == [0; 64] && remainders[64] == UNUSED && codes[64] == UNUSED;
    vec![
        ("64 breakpoints", most == Ok(64) && is_code && is_remainder),
        ("65 breakpoints", told(65) == (Err(11), [UNUSED; 70], [UNUSED; 70])),
        ("2 breakpoints", told(2).0 == Ok(2)),
        ("1 breakpoint", told(1) == (Err(11), [UNUSED; 70], [UNUSED; 70])),
        ("no breakpoint", told(0) == (Err(11), [UNUSED; 70], [UNUSED; 70])),
    ]
}

/// Width 1,048,575 = 16 × 65,535 + 15. The rise by then is −65,535 × 1,048,574 = −65,535 × 1,048,575 + 65,535.
fn greatest_n() -> Done {
    let lent = vec![UNUSED; MOST as usize];
    let (mut codes, mut remainders) = (lent.clone(), lent);
    let told = ramp(&breakpoints(&[(0, 32_767), (MOST - 1, -32_768)]), MOST, &mut codes, &mut remainders);
    let at = |i: usize| (codes[i], remainders[i]);
    vec![
        ("the greatest N", told == Ok(1_048_576)),
        ("its first words", at(0) == (0x7FFF, 0) && at(1) == (0x7FFE, 983_040)),
        ("-1,048,560 by 1,048,575", at(16) == (0x7FFE, 15) && at(17) == (0x7FFD, 983_055)),
        ("its last words", at(1_048_574) == (0x8000, 65_535) && at(1_048_575) == (0x8000_8000, 0)),
    ]
}

/// What is refused: breakpoints, N, lengths.
const REFUSED: [(&str, &[(u32, i16)], u32, usize, usize); 15] = [
    ("first index 1", &[(1, 0), (3, 9)], 4, 4, 4),
    ("equal neighbours", &[(0, 0), (2, 9), (2, 9), (3, 1)], 4, 4, 4),
    ("both at 0", &[(0, 0), (0, 0)], 4, 4, 4),
    ("falling neighbours", &[(0, 0), (2, 9), (1, 9), (3, 1)], 4, 4, 4),
    ("an inner index of all ones", &[(0, 0), (u32::MAX, 9), (3, 1)], 4, 4, 4),
    ("last is N", &[(0, 0), (4, 9)], 4, 5, 5),
    ("last is N + 1", &[(0, 0), (5, 9)], 4, 6, 6),
    ("last of all ones", &[(0, 0), (u32::MAX, 9)], 4, 4, 4),
    ("codes one short", &[(0, 0), (3, 9)], 4, 3, 4),
    ("remainders one short", &[(0, 0), (3, 9)], 4, 4, 3),
    ("codes with room for the ramp, not for N", &[(0, 0), (1, 9)], 4, 3, 4),
    ("remainders with room for the ramp, not for N", &[(0, 0), (1, 9)], 4, 4, 2),
    ("no words", &[(0, 0), (1, 9)], 2, 0, 0),
    ("N 0", &[(0, 0), (1, 9)], 0, 4, 4),
    ("N 1", &[(0, 0), (1, 9)], 1, 4, 4),
];

/// "nothing is written"
fn refused() -> Done {
    let mut done = Vec::new();
    for (label, points, n, codes, remainders) in REFUSED {
        let (mut first, mut second) = (vec![UNUSED; codes], vec![UNUSED; remainders]);
        let told = ramp(&breakpoints(points), n, &mut first, &mut second);
        let is_left = first.iter().chain(&second).all(|w| *w == UNUSED);
        done.push((label, told == Err(11) && is_left));
    }
    done
}

/// N "in document 01's range", with buffers that are long enough for more.
fn out_of_range() -> Done {
    let (mut codes, mut remainders) = (vec![UNUSED; MOST as usize + 1], vec![UNUSED; MOST as usize + 1]);
    let points = breakpoints(&[(0, 0), (1, 9)]);
    let over = ramp(&points, MOST + 1, &mut codes, &mut remainders);
    let is_left = codes[..2] == [UNUSED; 2] && remainders[..2] == [UNUSED; 2];
    let most = ramp(&points, MOST, &mut codes, &mut remainders);
    vec![("N 1,048,577", over == Err(11) && is_left), ("N 1,048,576", most == Ok(2))]
}

/// Kind 14 on a closed board; breakpoints (0, 0) and (3, −1) by kind 13.
fn in_scripts() -> Done {
    let record = |kind: u8, x: u32, y: u32, z: u32| {
        let numbers = [x, y, z].map(u32::to_le_bytes).concat();
        [&[kind, 1, 2, 3], &numbers[..]].concat()
    };
    let told = |n: u32| {
        let lay = [(0, 0), (1, 0), (2, 3), (3, 0x7777_FFFF)].map(|(at, word)| record(13, at, word, 0)).concat();
        script::tell(&[vec![0; 16], lay, record(14, n, 0xABCD_0002, 0x0004_0005)].concat()).text
    };
    let is = |text: String, answer: &str| text.starts_with(&format!("0 refused 1\n1 ok\n2 ok\n3 ok\n4 ok\n5 {answer}\nend "));
    vec![
        ("a ramp in a script", is(told(4), "wrote 4")),
        ("a refused one", is(told(5), "refused 11")),
    ]
}
