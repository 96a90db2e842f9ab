//! Decimal numbers: no plus sign, no leading zero, no `-0`.

use std::io::Write;

/// The longest number has 10 digits.
const MAX_DIGITS: usize = 10;

/// The number in `field`, if it is well formed and lies in `low..=high`.
pub fn read(field: &[u8], low: i32, high: i32) -> Option<i32> {
    let (negative, digits) = match field {
        [b'-', digits @ ..] => (true, digits),
        digits => (false, digits),
    };
    match digits {
        [] => return None,
        [b'0'] if negative => return None,
        [b'0', _, ..] => return None,
        _ if digits.len() > MAX_DIGITS => return None,
        _ => {}
    }
    let mut value: i64 = 0;
    for digit in digits {
        if !digit.is_ascii_digit() {
            return None;
        }
        value = value * 10 + i64::from(digit - b'0');
    }
    if negative {
        value = -value;
    }
    (i64::from(low) <= value && value <= i64::from(high)).then_some(value as i32)
}

pub fn write(out: &mut Vec<u8>, value: i32) {
    write!(out, "{value}").expect("writing to a Vec does not fail");
}
