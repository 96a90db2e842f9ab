//! The limits of documents 01 and 02, each in one place.

/// Bytes of a guide.
pub const MAX_GUIDE: usize = 16_384;
/// Bytes of a listing.
pub const MAX_LISTING: usize = 327_680;
/// Bytes of a plate.
pub const MAX_PLATE: usize = 2_953;
/// Bytes of a text.
pub const MAX_TEXT: usize = 64;
/// Phrases of a book.
pub const MAX_BOOK: usize = 256;
/// Own phrases of a listing or plate.
pub const MAX_OWN: usize = 32;
/// Ifs around a statement.
pub const MAX_LEVELS: usize = 16;
pub const MAX_INSTRUCTIONS: usize = 512;
pub const MAX_SKIP: usize = 511;
pub const REGISTERS: usize = 32;
/// Options of an inputs question.
pub const MIN_OPTIONS: usize = 2;
pub const MAX_OPTIONS: usize = 8;
/// Answers outside its options that end an inputs question.
pub const TRIES: u32 = 3;
/// 16-bit numbers lent to a run.
pub const SCRATCH: usize = 64;
