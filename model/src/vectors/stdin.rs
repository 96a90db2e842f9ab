//! The parts of a case, as a vector program reads them.

/// Adds a number of 4 bytes, the lowest first.
pub fn number(stdin: &mut Vec<u8>, value: usize) {
    let value = u32::try_from(value).expect("a number of 32 bits");
    stdin.extend_from_slice(&value.to_le_bytes());
}

/// Adds a number of 4 bytes in two's complement.
pub fn signed(stdin: &mut Vec<u8>, value: i32) {
    stdin.extend_from_slice(&value.to_le_bytes());
}

/// Adds a number of 8 bytes, the lowest first.
pub fn long_number(stdin: &mut Vec<u8>, value: u64) {
    stdin.extend_from_slice(&value.to_le_bytes());
}

/// Adds a slice: its length and its bytes.
pub fn slice(stdin: &mut Vec<u8>, bytes: &[u8]) {
    number(stdin, bytes.len());
    stdin.extend_from_slice(bytes);
}
