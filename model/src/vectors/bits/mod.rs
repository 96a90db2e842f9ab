//! The cases of `vectors_bits`: numbers read and written at a bit of a buffer.

mod collect;
mod eight;
mod wide;

pub use collect::collect;

use super::buffer::{pattern, shown};
use super::stdin;
use crate::bits::BitReader;

#[derive(Clone, Debug, PartialEq, Eq)]
pub enum Case {
    Read { bytes: Vec<u8>, place: u64, width: usize },
    Write { lent: usize, place: u64, width: usize, value: u64 },
    ReadEight { bytes: Vec<u8>, place: u64 },
}

impl Case {
    /// Adds the case to what the program reads.
    pub fn write(&self, out: &mut Vec<u8>) {
        match self {
            Case::Read { bytes, place, width } => {
                stdin::number(out, 0);
                stdin::slice(out, bytes);
                stdin::long_number(out, *place);
                stdin::number(out, *width);
            }
            Case::Write { lent, place, width, value } => {
                stdin::number(out, 1);
                stdin::number(out, *lent);
                stdin::long_number(out, *place);
                stdin::number(out, *width);
                stdin::long_number(out, *value);
            }
            Case::ReadEight { bytes, place } => {
                stdin::number(out, 2);
                stdin::slice(out, bytes);
                stdin::long_number(out, *place);
            }
        }
    }

    /// The line that the program writes.
    pub fn answer(&self) -> String {
        match self {
            Case::Read { bytes, place, width } => found(read(bytes, *place, *width).map(u64::from)),
            Case::Write { lent, place, width, value } => {
                let mut out = pattern(*lent);
                let place = put(&mut out, *place, *width, *value);
                format!("{place},{}\n", shown(&out))
            }
            Case::ReadEight { bytes, place } => found(read_eight(bytes, *place)),
        }
    }
}

/// The line of a number that was read, or of none.
fn found(value: Option<u64>) -> String {
    match value {
        Some(value) => format!("Y,{value}\n"),
        None => "N\n".to_owned(),
    }
}

/// The number of `width` bits from the bit `place` on; None if the bytes end
/// before it does. A number of no bits is 0 at any place.
pub fn read(bytes: &[u8], place: u64, width: usize) -> Option<u32> {
    if width == 0 {
        return Some(0);
    }
    let mut reader = BitReader::new(bytes);
    for _ in 0..place {
        reader.take(1)?;
    }
    reader.take(width as u32)
}

/// The number of 56 bits from the bit `place` on, bit by bit; None if fewer than
/// eight bytes are left from the byte of that bit on, though the bits may be there.
pub fn read_eight(bytes: &[u8], place: u64) -> Option<u64> {
    if (bytes.len() as u64) < place / 8 + 8 {
        return None;
    }
    let mut value = 0;
    for at in place..place + 56 {
        let byte = bytes[(at / 8) as usize];
        value = value * 2 + u64::from(byte >> (7 - at % 8) & 1);
    }
    Some(value)
}

/// Stores the lowest `width` bits of `value`, the highest first, from the bit
/// `place` on, each if it has room. Returns the place behind them, at most the
/// greatest number.
pub fn put(out: &mut [u8], place: u64, width: usize, value: u64) -> u64 {
    let bits = out.len() as u64 * 8;
    for number in 0..width {
        let Some(at) = place.checked_add(number as u64).filter(|&at| at < bits) else { break };
        let mask = 0x80 >> (at % 8);
        let byte = &mut out[(at / 8) as usize];
        if value >> (width - 1 - number) & 1 == 1 {
            *byte |= mask;
        } else {
            *byte &= !mask;
        }
    }
    place.saturating_add(width as u64)
}
