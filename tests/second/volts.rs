//! One reading in volts: document 02, request 7, whose quotations these are.

use std::fmt;

/// "Each of the four readings is a voltage, or lost, or damaged by a wrong CRC."
#[derive(Clone, Copy, PartialEq, Debug)]
pub enum Reading {
    Volts(f64),
    Lost,
    Damaged,
}

/// "The data is a signed code in two's complement, and the voltage is exactly code × 10 / 32,768."
pub fn voltage(data: u16) -> f64 {
    data as i16 as f64 * 10.0 / 32_768.0
}

/// A voltage is printed times 32,768, with every digit: it is a whole number (`checks` has all of them).
impl fmt::Display for Reading {
    fn fmt(&self, f: &mut fmt::Formatter) -> fmt::Result {
        match self {
            Reading::Volts(volts) => write!(f, "{}", volts * 32_768.0),
            Reading::Lost => write!(f, "lost"),
            Reading::Damaged => write!(f, "damaged"),
        }
    }
}
