//! The lent output buffer: its content before a call, and how it is shown after.

use crate::show::upper_hex;

/// Buffers up to this length are shown in full.
const SHOWN_IN_FULL: usize = 64;

/// The content before a call: byte i is (i * 7 + 13) modulo 256.
pub fn pattern(length: usize) -> Vec<u8> {
    (0..length).map(|place| ((place * 7 + 13) % 256) as u8).collect()
}

/// Two polynomial checksums. For every byte from the first on, each sum becomes
/// (sum * factor + byte + 1) modulo its prime; both are 0 at first. No number
/// here reaches 2^49.
pub fn checksums(bytes: &[u8]) -> [u64; 2] {
    const FACTORS: [u64; 2] = [48_271, 69_643];
    const PRIMES: [u64; 2] = [2_147_483_647, 4_294_967_291];
    let mut sums = [0; 2];
    for &byte in bytes {
        for place in 0..2 {
            let sum = sums[place] * FACTORS[place] + u64::from(byte) + 1;
            sums[place] = sum % PRIMES[place];
        }
    }
    sums
}

/// The whole buffer: in hexadecimal, or its two checksums.
pub fn shown(bytes: &[u8]) -> String {
    if bytes.len() <= SHOWN_IN_FULL {
        upper_hex(bytes)
    } else {
        let [first, second] = checksums(bytes);
        format!("{first},{second}")
    }
}
