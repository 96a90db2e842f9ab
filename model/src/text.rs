//! The rule of a text: 1 to 64 bytes of well-formed UTF-8 (RFC 3629), none below
//! 32, none 127 and none a comma.

use crate::limits::MAX_TEXT;
use std::str;

pub const LF: u8 = b'\n';

/// A byte that may stand on a line; one of 128 or more only as a part of a letter.
pub fn is_line_byte(byte: u8) -> bool {
    byte >= 32 && byte != 127
}

/// A byte that may stand in a text.
pub fn is_character(byte: u8) -> bool {
    is_line_byte(byte) && byte != b','
}

/// Whether the bytes are whole letters of UTF-8.
pub fn is_well_formed(bytes: &[u8]) -> bool {
    str::from_utf8(bytes).is_ok()
}

/// Whether the bytes may stand on a line.
pub fn is_line(bytes: &[u8]) -> bool {
    bytes.iter().all(|&byte| is_line_byte(byte)) && is_well_formed(bytes)
}

pub fn is_length(length: usize) -> bool {
    (1..=MAX_TEXT).contains(&length)
}

pub fn is_text(bytes: &[u8]) -> bool {
    is_length(bytes.len()) && bytes.iter().all(|&byte| is_character(byte)) && is_well_formed(bytes)
}

/// Whether a text has the old characters alone, which are those of an own phrase
/// and of a text spelled in 7 bits.
pub fn is_plain(text: &[u8]) -> bool {
    text.is_ascii()
}
