//! Plates: the codes and limits that writing and reading share.

mod read;
mod write;

pub use read::{read, room_for_characters};
pub use write::write;

/// Ends a spelled text, in the width of its characters.
const ETX: u32 = 0b11;

/// Codes of the instructions.
const INPUT: u32 = 0b000;
const INPUTS: u32 = 0b001;
const PRINT: u32 = 0b010;
const PRINTEX: u32 = 0b011;
const GOTO: u32 = 0b100;
const IF: u32 = 0b101;

/// Codes of a text: spelled in 7 bits to a character, spelled in 8 bits to a
/// byte, which has a byte of 128 or more, and a phrase.
const SPELLED: u32 = 0b00;
const SPELLED_IN_BYTES: u32 = 0b01;
const PHRASE: u32 = 0b10;

/// Codes of a constant.
const SHORT: u32 = 0b00;
const LONG: u32 = 0b01;

/// The widths of the fields, in bits.
mod width {
    pub const ANY_OWN: u32 = 1;
    pub const OWN_COUNT: u32 = 5;
    pub const CHARACTER: u32 = 7;
    pub const BYTE: u32 = 8;
    pub const COUNT: u32 = 10;
    pub const CODE: u32 = 3;
    pub const REGISTER: u32 = 5;
    pub const OPTIONS: u32 = 3;
    pub const OP: u32 = 3;
    pub const SKIP: u32 = 9;
    pub const TEXT_CODE: u32 = 2;
    pub const BOOK_OR_OWN: u32 = 1;
    pub const CONSTANT_CODE: u32 = 2;
    pub const SHORT: u32 = 16;
    pub const LONG: u32 = 32;
}

/// The constants written in 16 bits.
fn is_short(constant: i32) -> bool {
    i16::try_from(constant).is_ok()
}
