//! Refusals: a cause's number and its place.

/// Why and where an input was refused. The place is a line (from 1), a bit
/// (from 0) or 0, by the cause.
#[derive(Clone, Copy, Debug, PartialEq, Eq)]
pub struct Refusal {
    pub number: u32,
    pub place: usize,
}

pub fn refuse<T>(number: u32, place: usize) -> Result<T, Refusal> {
    Err(Refusal { number, place })
}

/// The numbers of the causes.
pub mod cause {
    pub const BOOK: u32 = 1;
    pub const TOO_LONG: u32 = 2;
    pub const BYTE: u32 = 3;
    pub const KIND: u32 = 4;
    pub const FIELD: u32 = 5;
    pub const OWN_PHRASE: u32 = 6;
    pub const NESTING: u32 = 7;
    pub const SKIP: u32 = 8;
    pub const INSTRUCTIONS: u32 = 9;
    pub const PLATE_TOO_LONG: u32 = 10;
    pub const SHORT_BUFFER: u32 = 11;
    pub const CUT: u32 = 12;
    pub const CODE: u32 = 13;
    pub const CONTENT: u32 = 14;
    pub const FILLING: u32 = 15;
}
